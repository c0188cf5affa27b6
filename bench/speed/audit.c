/* audit ID INWARD BEFORE AFTER REPORT NAMESPACE..: a plain audit by hand, to measure `ioam audit` against. It walks the chains of
 * the packets of two big-endian classic captures of link type 101 (RFC 8200 section 4), compares them in step, looks at what a node
 * of this id, reached by this interface, that knows these namespaces and 0, may have made of each trace (RFC 9197 section 4.4), and
 * writes the same report. It looks for no fault of the captures. */
#include <stdint.h>
#include <stdio.h>
#include <stdlib.h>
#include <string.h>

typedef uint8_t u8;
typedef uint32_t u32;
typedef uint64_t u64;
typedef struct { FILE *file; u32 size; const char *reason; u8 packet[262144]; } Lane;

static u64 id;
static u32 inward;
static u8 known[65536];

static u32 two(const u8 *p) { return (u32)p[0] << 8 | p[1]; }
static u32 four(const u8 *p) { return two(p) << 16 | two(p + 2); }
static u64 eight(const u8 *p) { return (u64)four(p) << 32 | four(p + 4); }

/* ---- packets ---- */
/* Whether the options fill their header. */
static int whole_options(const u8 *head, u32 size) {
    for (u32 at = 2; at < size; at += head[at] ? 2 + head[at + 1] : 1)
        if (head[at] && (at + 2 > size || at + 2 + head[at + 1] > size)) return 0;
    return 1;
}

static int whole_chain(const u8 *p, u32 have) {
    u32 at = 40, next = p[6], behind_ip = 1, size;
    while (next == 0 || next == 41 || next == 43 || next == 44 || next == 60) {
        u32 least = next == 41 ? 40 : 8;
        if (have - at < least || (next == 0 && !behind_ip) || (next == 41 && p[at] >> 4 != 6)) return 0;
        if (next == 44 && two(p + at + 2) >> 3) return 1;
        size = least == 40 || next == 44 ? least : (p[at + 1] + 1u) * 8;
        if (have - at < size || ((next == 0 || next == 60) && !whole_options(p + at, size))) return 0;
        behind_ip = next == 41;
        next = next == 41 ? p[at + 6] : p[at];
        at += size;
    }
    return 1;
}

/* The next record of a capture, and the reason for which it is no packet; whether there is one. */
static int next_packet(Lane *lane) {
    u8 record[16], *p = lane->packet;
    if (fread(record, 1, 16, lane->file) != 16) return 0;
    u32 have = four(record + 8);
    if (have > sizeof lane->packet || fread(p, 1, have, lane->file) != have) exit(1);
    lane->reason = 0;
    if (!have || p[0] >> 4 != 6) lane->reason = "not-ipv6";
    else if (have < four(record + 12)) lane->reason = "cut";
    else if (have < 40 || have < 40 + two(p + 4)) lane->reason = "length";
    else if (lane->size = 40 + two(p + 4), !whole_chain(p, lane->size)) lane->reason = "chain";
    return 1;
}

/* ---- traces ---- */
static int has(u32 kind, int bit) { return kind >> (23 - bit) & 1; }

/* Whether an element's fields may be those of the node; its filler and its snapshot too. */
static int is_lawful(const u8 *e, u32 count, u32 kind, u32 node_len, u32 hops) {
    const u8 *end = e + 4 * node_len, *narrow = 0, *wide = 0;
    if (has(kind, 22) ? count <= node_len || count != node_len + 1 + *end : count != node_len) return 0;
    if (has(kind, 0)) { if (four(e) != (hops << 24 | (id < 0xffffff ? id : 0xffffff))) return 0; e += 4; }
    if (has(kind, 1)) { narrow = e; e += 4; }
    e += 4 * (has(kind, 2) + has(kind, 3));
    if (has(kind, 4)) { if (four(e) > 0x80000000 && four(e) != ~0u) return 0; e += 4; }
    e += 4 * (has(kind, 5) + has(kind, 6) + has(kind, 7));
    if (has(kind, 8)) { if (eight(e) != ((u64)hops << 56 | id)) return 0; e += 8; }
    if (has(kind, 9)) { wide = e; e += 8; }
    e += 8 * has(kind, 10) + 4 * has(kind, 11);
    u32 by = inward < 0xffff ? inward : 0xffff;
    int given = (!narrow || two(narrow) == by) && (!wide || four(wide) == inward);
    if (!given && !((!narrow || two(narrow) == 0xffff) && (!wide || four(wide) == ~0u))) return 0;
    if (narrow && wide && two(narrow + 2) != (four(wide + 4) < 0xffff ? four(wide + 4) : 0xffff)) return 0;
    for (; e < end; e++) if (*e != 255) return 0;
    return 1;
}

/* Whether a node may have left old data so. */
static int may_become(const u8 *o, const u8 *n, u32 size, u32 hops) {
    int same = !memcmp(o, n, size);
    if (size < 8) return same;
    u32 middle = two(o + 2), kind = four(o + 4) >> 8, node_len = middle >> 11, left = middle & 127, rest = n[3] & 127;
    u32 words = __builtin_popcount(kind >> 12) + __builtin_popcount(kind >> 13 & 7), undefined = __builtin_popcount(kind >> 2 & 0x3ff);
    if (same && undefined) return 1;
    if (middle & 0x400 || size % 4 || left > (size - 8) / 4 || !(kind >> 1)) return same;
    if (undefined ? node_len < words : node_len != words) return same;
    if (two(n + 2) == (middle | 0x400)) return two(o) == two(n) && !memcmp(o + 4, n + 4, size - 4) && (has(kind, 22) || node_len > left);
    if (rest > left || two(n + 2) != middle - (left - rest) || two(o) != two(n) || memcmp(o + 4, n + 4, 4 + 4 * rest)) return 0;
    if (memcmp(o + 8 + 4 * left, n + 8 + 4 * left, size - 8 - 4 * left)) return 0;
    return is_lawful(n + 8 + 4 * rest, left - rest, kind, node_len, hops);
}

/* Whether the options of two Hop-by-Hop Options headers agree, from behind their lengths on. */
static int agree(const u8 *o, const u8 *n, u32 size, u32 hops) {
    for (u32 at = 2; at < size;) {
        if (!o[at]) { if (n[at++]) return 0; continue; }
        u32 length = o[at + 1], fixed = 2 + length;
        const u8 *body = o + at + 2;
        int trace = o[at] == 0x31 && length >= 4 && body[1] == 0 && known[two(body + 2)];
        if (trace) fixed = 4;
        if (memcmp(o + at, n + at, fixed)) return 0;
        if (trace && !may_become(body + 2, n + at + 4, length - 2, hops)) return 0;
        at += 2 + length;
    }
    return 1;
}

static int is_sent_as(const Lane *before, const Lane *after) {
    const u8 *o = before->packet, *n = after->packet;
    u32 at = 40;
    if (before->size != after->size || o[7] < 2 || n[7] != o[7] - 1 || memcmp(o, n, 7) || memcmp(o + 8, n + 8, 32)) return 0;
    if (o[6] == 0) {
        u32 size = (o[41] + 1u) * 8;
        if (o[40] != n[40] || o[41] != n[41] || !agree(o + 40, n + 40, size, n[7])) return 0;
        at += size;
    }
    return !memcmp(o + at, n + at, before->size - at);
}

/* ---- the report ---- */
static FILE *report;

static void number(u64 value, const char *behind) {
    char digits[24], *to = digits + 24;
    do *--to = '0' + value % 10; while (value /= 10);
    fwrite(to, 1, digits + 24 - to, report);
    fputs(behind, report);
}

static FILE *opened(const char *name, const char *way) {
    FILE *file = fopen(name, way);
    if (!file || setvbuf(file, 0, _IOFBF, 1 << 18)) exit(1);
    return file;
}

int main(int count, char **words) {
    static Lane before, after;
    u8 head[24];
    u64 sent = 0, gone = 0, skipped = 0;
    if (count < 6) return 1;
    id = strtoull(words[1], 0, 10);
    inward = strtoul(words[2], 0, 10);
    known[0] = 1;
    for (int place = 6; place < count; place++) known[atoi(words[place]) & 65535] = 1;
    before.file = opened(words[3], "rb");
    after.file = opened(words[4], "rb");
    report = opened(words[5], "wb");
    if (fread(head, 1, 24, before.file) != 24 || fread(head, 1, 24, after.file) != 24) return 1;
    int waits = next_packet(&after);
    while (next_packet(&before)) {
        number(sent + gone + skipped + 1, " ");
        if (before.reason) { skipped++; fprintf(report, "skip %s\n", before.reason); }
        else if (waits && !after.reason && is_sent_as(&before, &after)) {
            fputs("sent ", report);
            number(++sent, "\n");
            waits = next_packet(&after);
        } else { gone++; fputs("gone\n", report); }
    }
    fputs("packets ", report);
    number(sent + gone + skipped, " sent ");
    number(sent, " gone ");
    number(gone, " skipped ");
    number(skipped, waits ? "\nverdict no " : "\nverdict yes\n");
    if (waits) number(sent + 1, "\n");
    while (waits) waits = next_packet(&after);
    return fclose(report) != 0;
}
