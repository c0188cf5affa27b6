/* texts paths|show IN REPORT: these two reports by hand, to measure `ioam paths` and `ioam show` against. It reads a big-endian
 * classic capture of link type 101 and knows pre-allocated traces of defined bits; of other IOAM options it writes nothing and says
 * so. */
static unsigned kind;
#define TRACE kind
#define NODES 1
#define FIRST 0
#include "yardstick.h"

static int node_named(const char *name) { (void)name; return 0; }

/* A trace of `count` octets: its line, without what precedes the namespace, and those of its elements. */
static u8 *trace(u8 *o, const u8 *b, u32 count, int show) {
    u32 middle = be16(b + 2), at = 4 * (middle & 127), end = count - 8, elements = 0;
    static u8 places[256];
    if (count < 8 || count % 4) return word(decimal(word(o, "bad short "), count), "\n");
    if (at > end) return word(decimal(word(o, "bad space "), at / 4), "\n");
    kind = be32(b + 4) >> 8;
    if (kind & 0xffd || middle >> 11 != words(kind)) die("an undefined bit, or a wrong NodeLen");
    while (at < end) {
        places[elements++] = at / 4;
        at += 4 * (words(kind) + (HAS(kind, 22) ? 1 + b[8 + at + 4 * words(kind)] : 0));
    }
    if (at != end) die("an element that isn't whole");
    o = hexadecimal(word(decimal(o, be16(b)), " "), "", b + 4, 3);
    if (show) o = decimal(word(decimal(word(o, " flags "), middle >> 7 & 15), " remaining "), middle & 127);
    else o = decimal(word(o, middle & 0x400 ? " overflow " : " whole "), elements);
    *o++ = '\n';
    while (elements--) {
        o = fields(word(o, "   "), b + 8 + 4 * places[elements]);
        *o++ = '\n';
    }
    return o;
}

/* Finds the IOAM options: of the whole chain, or of the headers that precede any nested packet. The chain is whole. */
static u32 options(const u8 *p, int all, u32 *found) {
    u32 at = 40, next = p[6], count = 0;
    for (;;) {
        if (next == 41) {
            if (!all) return count;
            next = p[at + 6]; at += 40;
        } else if (next == 44) {
            u32 offset = be16(p + at + 2) >> 3;
            next = p[at]; at += 8;
            if (offset) return count;
        } else if (next == 0 || next == 60 || next == 43) {
            u32 size = (p[at + 1] + 1) * 8;
            if (next != 43)
                for (u32 o = at + 2; o < at + size; o += p[o] ? 2 + p[o + 1] : 1)
                    if (p[o] == 0x11 || p[o] == 0x31) found[count++] = o;
            next = p[at]; at += size;
        } else return count;
    }
}

static u8 *packet(u8 *o, const u8 *p, int show) {
    static u32 found[65536];
    u32 count = options(p, show, found), traces = 0;
    for (u32 i = 0; i < count; i++)
        if (p[found[i] + 1] >= 2 && p[found[i] + 3] == 0) traces++;
    if (show && traces != count) die("an option that is no pre-allocated trace");
    o = word(decimal(word(o, show ? " options " : " traces "), traces), "\n");
    for (u32 i = 0; i < count; i++) {
        const u8 *option = p + found[i];
        if (option[1] < 2 || option[3] != 0) continue;
        if (show) o = decimal(word(digits(word(o, "  "), option, 1), " at "), found[i]);
        o = trace(word(o, show ? " trace " : "  trace "), option + 4, option[1] - 2, show);
    }
    return o;
}

int main(int count, char **names) {
    static Output report;
    u64 time, number = 0;
    u32 captured, original;
    const u8 *p;
    if (count != 4) die("texts paths|show IN REPORT");
    int show = names[1][0] == 's';
    open_input(names[2]);
    open_output(&report, names[3]);
    while ((p = next_record(&time, &captured, &original))) {
        u8 *start = room(&report, 1 << 16), *o = decimal(start, ++number);
        int limit = -1, reason = captured == 0 || p[0] >> 4 != 6 ? NOT_IPV6 : captured < original ? CUT
            : captured < 40 || captured < 40 + be16(p + 4) ? LENGTH : walk(p, 40 + be16(p + 4), &limit);
        if (reason == FINE || reason == IOAM_IN) o = packet(o, p, show);
        else o = word(word(word(o, " skip "), reasons[reason]), "\n");
        report.count += o - start;
    }
    u8 *start = room(&report, 64);
    report.count += word(decimal(word(start, "packets "), number), "\n") - start;
    flush(&report);
    return 0;
}
