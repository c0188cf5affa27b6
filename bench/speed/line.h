/* What the nodes of a line of make_line.py do with a packet, as a C programmer would write it by hand: long.c takes
 * them. It is compiled for one line: NODES, the flow's TRACE (0: none) and CAPACITY, DIRECT (the type of its direct export; 0:
 * none), and WORDS, those of a node's snapshot (-1: a node has no data). */
#define FIRST 1
#include "yardstick.h"

static int node_named(const char *name) { return atoi(name + 1) - 1; }
enum { OPTIONS = (TRACE ? 12 + 4 * CAPACITY : 0) + (DIRECT ? 20 : 0), HOP = OPTIONS ? (4 + OPTIONS + 7) / 8 * 8 : 0 };
/* The outer packet of that number around a packet, before its visits; answers its length. */
static u32 enclose(u8 *outer, const u8 *p, u32 length, u32 number) {
    u32 outer_length = 40 + HOP + length;
    put32(outer, 6u << 28 | (be32(p) & 0x0ff00000)); put16(outer + 4, outer_length - 40); outer[6] = HOP ? 0 : 41; outer[7] = 255;
    put64(put64(put64(put64(outer + 8, NET), 1), NET), NODES);
    u8 *o = outer + 40, *end = o + HOP;
    if (HOP) o = put32(o, 41u << 24 | (HOP / 8 - 1) << 16 | 0x0100);
    if (TRACE) {
        o = put32(o, 0x31000000 | (10 + 4 * CAPACITY) << 16);
        o = put32(o, 7u << 16 | words(TRACE) << 11 | CAPACITY); o = put32(o, (u32)TRACE << 8);
        memset(o, 0, 4 * CAPACITY); o += 4 * CAPACITY;
    }
    if (DIRECT) {
        o = put32(o, 0x11120004); o = put32(o, 0x000700c0); o = put32(o, (u32)DIRECT << 8); o = put32(o, 9); o = put32(o, number);
    }
    if (o < end) o = put32(o, 0x01020000);
    memcpy(o, p, length);
    o[7]--;
    return outer_length;
}
/* The visit of node k, from 0, in place; its export record goes to the octets given, whose end is answered. */
static u8 *visit(u8 *outer, u32 k, u64 time, u8 *exports) {
    static const u8 snapshot[] = { 0x00, 0x11, 0x22, 0x33, 0x00, 0x11, 0x22, 0x33, 0x00, 0x11, 0x22, 0x33, 0x00, 0x11, 0x22, 0x33,
        0x00, 0x11, 0x22, 0x33, 0x00, 0x11, 0x22, 0x33, 0x00, 0x11, 0x22, 0x33, 0x00, 0x11, 0x22, 0x33 };
    View v = view_of(k, time);
    v.hops = 255 - k;
    v.inward = 1;
    if (k + 1 < NODES) v.outward = 2;
    if (WORDS >= 0) { v.data = v.wide = k + 1; v.schema = 5; v.opaque_words = WORDS; v.opaque = snapshot; }
    if (k && k + 1 < NODES) outer[7]--;
    if (outer[6] == 0)
        for (u32 o = 42, end = 40 + (outer[41] + 1) * 8; o < end;) {
            if (outer[o] == 0) { o++; continue; }
            u32 kind = outer[o], count = outer[o + 1], space = be16(outer + o + 4);
            if ((kind == 0x31 || kind == 0x11) && count >= 10 && (space == 0 || space == 7)) {
                u8 *data = outer + o + 4;
                if (outer[o + 3] == 0 && kind == 0x31) fill(data, count - 2, &v);
                if (outer[o + 3] == 4) {
                    u32 type = be32(data + 4) >> 8, size = 4 * (words(type) + HAS(type, 22) * (1 + v.opaque_words));
                    exports = put32(exports, 0x02c00000 | (30 + size)); exports = put16(exports, space);
                    exports = put32(exports, type); exports = put32(put64(exports, time), v.inward);
                    exports = put32(put32(exports, be32(data + 8)), be32(data + 12));
                    element(exports, type, words(type), &v);
                    exports += size;
                }
            }
            o += 2 + count;
        }
    return exports;
}
