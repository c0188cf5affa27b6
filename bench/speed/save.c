/* save IN OUT: a big-endian classic capture of link type 101 as a pcapng, by hand, to measure `ioam save` against: a section, an
 * interface of link type 101 and one of 1, both in nanoseconds, and an Enhanced Packet Block for each record
 * (draft-ietf-opsawg-pcapng sections 4.1 to 4.3). */
#define TRACE 0
#define NODES 1
#define FIRST 0
#include "yardstick.h"

static int node_named(const char *name) { (void)name; return 0; }

static const u8 section[28] = { 0x0a, 0x0d, 0x0d, 0x0a, 0, 0, 0, 28, 0x1a, 0x2b, 0x3c, 0x4d, 0, 1, 0, 0, 255, 255, 255, 255, 255, 255,
    255, 255, 0, 0, 0, 28 };

static u8 *interface(u8 *o, u32 link_type) {
    o = put16(put16(put32(put32(o, 1), 32), link_type), 0);
    return put32(put32(put32(put32(put32(o, 262144), 9 << 16 | 1), 9 << 24), 0), 32);
}

int main(int count, char **names) {
    static Output out;
    u64 time;
    u32 captured, original;
    const u8 *p;
    if (count != 3) die("save IN OUT");
    open_input(names[1]);
    open_output(&out, names[2]);
    memcpy(out.octets, section, sizeof section);
    out.count = interface(interface(out.octets + sizeof section, 101), 1) - out.octets;
    while ((p = next_record(&time, &captured, &original))) {
        u32 size = 32 + ((captured + 3) & ~3u);
        u8 *o = put32(put32(put32(room(&out, size), 6), size), 0);
        o = put32(put32(put64(o, time), captured), original);
        put32(o + size - 32, size);
        memset(o + size - 36, 0, 4);
        memcpy(o, p, captured);
        out.count += size;
    }
    flush(&out);
    return 0;
}
