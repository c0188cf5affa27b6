"""Three nodes in a row with a flow from west to east, and a packet of it: what rows by hand are worked out over."""

LINE = """
node = [
  { name = "a", id = 1, address = "2001:db8::a", namespaces = [7] },
  { name = "b", id = 2, address = "2001:db8::b", namespaces = [7] },
  { name = "c", id = 3, address = "2001:db8::c", namespaces = [7] },
]
link = [
  { name = "ab", from = "a", to = "b", out_id = 12, in_id = 21, delay = 1000, mtu = 1500, tap = "ab.pcap" },
  { name = "bc", from = "b", to = "c", out_id = 23, in_id = 32, delay = 1000, mtu = 1500, tap = "bc.pcap" },
]
port = [
  { name = "west", node = "a", id = 10, in = "west.pcap", out = "west-out.pcap" },
  { name = "east", node = "c", id = 30, out = "east-out.pcap" },
]
route = [
  { node = "a", prefix = "2001:db8::c/128", link = "ab" },
  { node = "b", prefix = "2001:db8::c/128", link = "bc" },
  { node = "c", prefix = "2001:db8:2::/48", port = "east" },
]
flow = [
  { name = "f", entry = "a", exit = "c", source = "::/0", target = "2001:db8:2::/48", namespace = 7, hops = 64, trace = 0x800000, capacity = 3 },
]
"""
U = bytes.fromhex("6000000000081140" "20010db8000100000000000000000001"
                  "20010db8000200000000000000000001" "0400040100080000")
