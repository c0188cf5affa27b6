/* node READINGS IN OUT REPORT: what node three of examples/one-node makes of the packets of a capture that come by two-three, by
 * hand, to measure `ioam node` against. It reads a big-endian classic capture of link type 101 and knows pre-allocated traces; of
 * other IOAM options it writes nothing and says so. */
#define TRACE 0
#define NODES 1
#define FIRST 3
#include "yardstick.h"
enum { ID = 3, INWARD = 32, OUTWARD = 34, MTU = 1500 };

static int node_named(const char *name) { if (strcmp(name, "three")) die(name); return 0; }

/* The reason for which the node drops the packet, if it does. */
static int stop(const u8 *p, u32 captured, u32 original, u32 *length) {
    int limit = -1, reason = admit(p, captured, original, length, &limit);
    if (reason != FINE && reason != IOAM_IN) return reason;
    if (be64(p + 24) == NET && be64(p + 32) == FIRST) return LOCAL;
    if (p[7] < 2) return HOP_LIMIT;
    if (be32(p + 24) != NET >> 32) return NO_ROUTE;
    return *length > MTU ? TOO_BIG : FINE;
}

/* What the node does to a trace of `count` octets, and the line that says so. */
static u8 *trace(u8 *o, u8 *b, u32 count, const View *v) {
    u32 space = be16(b), middle = be16(b + 2), now;
    o = decimal(word(o, "  trace "), space);
    if (space != 0 && space != 7 && space != 123) return word(o, " unknown\n");
    if (middle & 0x400) return word(o, " over\n");
    fill(b, count, v);
    now = be16(b + 2);
    if (now & 0x400) return word(o, " overflow\n");
    return now == middle ? word(o, " unsuited\n") : word(decimal(word(o, " added "), middle - now), "\n");
}

static u8 *options(u8 *o, u8 *p, u64 time) {
    u32 end = 40 + (p[41] + 1) * 8;
    for (u32 at = 42; at < end; at += p[at] ? 2 + p[at + 1] : 1) {
        if (p[at] == 0x11) die("an option of type 0x11");
        if (p[at] != 0x31) continue;
        if (p[at + 1] < 10 || p[at + 3]) die("an option that is no pre-allocated trace");
        View v = view_of(0, time);
        v.hops = p[7];
        v.id = ID;
        v.inward = INWARD;
        v.outward = OUTWARD;
        o = trace(o, p + at + 4, p[at + 1] - 2, &v);
    }
    return o;
}

int main(int count, char **names) {
    static Output out, report;
    u64 time, number = 0, sent = 0;
    u32 captured, original, length;
    const u8 *p;
    if (count != 5) die("node READINGS IN OUT REPORT");
    read_readings(names[1]);
    open_input(names[2]);
    open_capture(&out, names[3]);
    open_output(&report, names[4]);
    while ((p = next_record(&time, &captured, &original))) {
        u8 *start = room(&report, 1 << 16), *o = decimal(start, ++number);
        int reason = stop(p, captured, original, &length);
        if (reason) o = word(word(word(o, " drop "), reasons[reason]), "\n");
        else {
            sent++;
            o = word(o, " out three-four\n");
            put_packet(&out, time, p, length, 1);
            if (p[6] == 0) o = options(o, out.octets + out.count - length, time);
        }
        report.count += o - start;
    }
    u8 *start = room(&report, 128), *o = word(decimal(word(decimal(word(decimal(word(start, "packets "), number), " out "), sent), " dropped "), number - sent), "\n");
    report.count += o - start;
    flush(&out);
    flush(&report);
    return 0;
}
