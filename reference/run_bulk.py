"""What `ioam bulk` prints, answers and writes."""

from capture import Record
from domain import read_domain
from packet import put_header
from report import Sums
from run_plan import Planner
from run_program import Answer, number_of

MULTIPLIER, INCREMENT = 6364136223846793005, 1442695040888963407
NO_NEXT_HEADER = 59
SOURCE = 0x20010DB8000100000000000000000001
TARGET = 0x20010DB8000200000000000000000001


def domain_text():
    """Five nodes in a row, of which the third doesn't know the flow's
    namespace."""
    lines = []
    for place in range(1, 6):
        known = "" if place == 3 else "7"
        lines.append('[[node]]\nname = "n%d"\nid = %d\naddress = "2001:db8::%d"\n'
                     'namespaces = [%s]\n' % (place, place, place, known))
    for place in range(1, 5):
        lines.append('[[link]]\nname = "l%d"\nfrom = "n%d"\nto = "n%d"\nout_id = 2\nin_id = 1\n'
                     'delay = 1000\nmtu = 1500\n' % (place, place, place + 1))
        for prefix in ("2001:db8::5/128", "2001:db8:2::/48"):
            lines.append('[[route]]\nnode = "n%d"\nprefix = "%s"\nlink = "l%d"\n'
                         % (place, prefix, place))
    lines.append('[[port]]\nname = "west"\nnode = "n1"\nid = 1\nout = "west-out.pcap"\n'
                 '[[port]]\nname = "east"\nnode = "n5"\nid = 2\nout = "east-out.pcap"\n'
                 '[[route]]\nnode = "n5"\nprefix = "2001:db8:2::/48"\nport = "east"\n'
                 '[[flow]]\nname = "f"\nentry = "n1"\nexit = "n5"\nsource = "::/0"\n'
                 'target = "2001:db8:2::/64"\nnamespace = 7\nhops = 64\ntrace = 0x800000\n'
                 'capacity = 5\nedge = 0x4000\ndirect = 0x800000\nevery = 4\nflow_id = 1\n')
    return "".join(lines)


def arrivals(seed, count):
    """The generated packets, one each microsecond."""
    state = seed
    for place in range(count):
        hops = 1 + (state >> 32) % 8
        payload = (state >> 40) % 1400
        target = TARGET | ((state >> 60) % 2) << 64
        packet = put_header(0, 0, payload, NO_NEXT_HEADER, hops, SOURCE, target)
        packet += bytes(payload)
        yield Record(False, 1000 * place, len(packet), packet)
        state = (state * MULTIPLIER + INCREMENT) % (1 << 64)


def bulk(words):
    """The command `bulk`."""
    if len(words) != 5 or words[0] != "bulk" or not (number_of(words[1], 0, (1 << 64) - 1)
                               and number_of(words[2], 1, 1000000)
                               and number_of(words[3], 1, 64)):
        return Answer("usage")
    domain = read_domain(domain_text().encode())
    planner = Planner(domain, [[] for _ in domain.node])
    sums = Sums(domain)
    for record in arrivals(int(words[1]), int(words[2])):
        sums.note(planner.plan(0, record))
    return Answer("done", {words[4]: sums.text().encode()})
