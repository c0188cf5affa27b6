/* measured READINGS REPORT EXPORTS: what `ioam run` does over the domain of make_measured.py, which is built in, as a C
 * programmer would write it by hand: one thread, packet by packet, each node's options scanned. It reads west.pcap and writes
 * west-out.pcap, east-out.pcap, ab.pcap and cd.pcap beside REPORT and EXPORTS. A yardstick of speed, for bench/speed/measured.sh;
 * that also compares all six files. TRACE and CAPACITY are the flow's. */
#ifndef TRACE
#define TRACE 0xc00000
#define CAPACITY 10
#endif
enum { A, B, C, D, E, NODES };
#define FIRST 0xa
#include "yardstick.h"

/* ---- the domain ---- */
enum { AB, BC, CD, DE, WEST, EAST, NOWHERE };
static const u32 out_id[] = { 12, 23, 34, 45, 10, 50 }, inward[NODES] = { 10, 21, 32, 43, 54 }, mtu[] = { 1600, 1600, 1600, 1580 };
static const u8 knows[NODES] = { 1, 1, 1, 0, 1 };
typedef struct { u64 high, low, high_mask, low_mask; int way; } Route;
#define HOST(way) { NET, 0xe, ~0ull, ~0ull, way }
#define SUB(net, way) { NET | (net) << 16, 0, ~0ull << 16, 0, way }
#define END { 0, 0, 0, 0, NOWHERE }
static const Route routes[NODES][5] = { { HOST(AB), SUB(2, AB), SUB(3, AB), SUB(1, WEST), END },
    { HOST(BC), SUB(2, BC), SUB(3, BC), END }, { HOST(CD), SUB(2, CD), END }, { HOST(DE), SUB(2, DE), END }, { SUB(2, EAST), END } };
static int node_named(const char *name) { return *name - 'a'; }
static int route(int node, u64 high, u64 low) {
    const Route *r = routes[node];
    while ((high & r->high_mask) != r->high || (low & r->low_mask) != r->low) r++;
    return r->way;
}
/* ---- what arrives, and its way ---- */
typedef struct { u64 time; u8 node, way; } Visit;
static struct { int reason, where, enclosed, exited, port, limit; u32 seen, kept, number, direct, length; Visit visits[8]; } job;
enum { HOP = 16 + 4 * CAPACITY };
static u32 up8(u32 count) { return (count + 7) & ~7u; }
static u32 enclosed_so_far;
static void plan(u64 time, int reason, const u8 *p, int limit) {
    int node = A;
    job.enclosed = job.exited = job.seen = job.kept = 0;
    if (reason) goto drop;
    u64 high = be64(p + 24), low = be64(p + 32), to_high = high, to_low = low;
    u32 hops = p[7], size = job.length;
    int flow = high == (NET | 2ull << 16);
    if (flow) {
        job.number = enclosed_so_far;
        job.direct = job.number % 4 ? ~0u : job.number / 4;
        job.limit = limit < 0 ? -1 : limit - 1;
        size += 40 + up8(HOP + (job.direct != ~0u ? 20 : 0)) + (limit >= 0 ? 24 : 16);
        to_high = NET; to_low = 0xe;
    }
    for (;; node++, time += 1000) {
        Visit *visit = &job.visits[job.seen];
        *visit = (Visit){ time, node, NOWHERE };
        if (flow && node == E) {
            job.exited = 1; job.kept++; job.seen++;
            int way = route(node, high, low);
            if (p[7] <= 2) { reason = HOP_LIMIT; goto dropped; }
            if (way != WEST && way != EAST) { reason = NO_ROUTE; goto dropped; }
            job.port = way; job.reason = FINE;
            return;
        }
        if (hops <= 1) { reason = HOP_LIMIT; goto drop; }
        int way = route(node, to_high, to_low);
        if (way == NOWHERE) { reason = NO_ROUTE; goto drop; }
        if (flow && node == A && limit == 0) { reason = ENCAP_LIMIT; goto drop; }
        if (way < WEST && mtu[way] < size) { reason = TOO_BIG; goto drop; }
        if (flow && way >= WEST) { reason = IOAM_OUT; goto drop; }
        if (flow && node == A) { job.enclosed = 1; enclosed_so_far++; hops = 64; } else hops--;
        visit->way = way; job.seen++; job.kept++;
        if (way >= WEST) { job.port = way; job.reason = FINE; return; }
    }
drop:
    job.seen++;
dropped:
    job.reason = reason; job.where = node;
}

/* ---- the tunnel, and its nodes ---- */
static u8 outer[80000];
static u32 outer_length;
static void enclose(const u8 *p) {
    int direct = job.direct != ~0u, limit = job.limit >= 0;
    u32 hop = up8(HOP + (direct ? 20 : 0)), target = limit ? 24 : 16;
    outer_length = 40 + hop + target + job.length;
    put32(outer, 6u << 28 | (be32(p) & 0x0ff00000)); put16(outer + 4, outer_length - 40); outer[6] = 0; outer[7] = 64;
    put64(put64(put64(put64(outer + 8, NET), 0xa), NET), 0xe);
    u8 *o = outer + 40, *end = o + hop;
    o = put32(o, 60u << 24 | (hop / 8 - 1) << 16 | 0x0100);
    o = put32(o, 0x31000000 | (10 + 4 * CAPACITY) << 16);
    o = put32(o, 7u << 16 | words(TRACE) << 11 | CAPACITY); o = put32(o, (u32)TRACE << 8);
    memset(o, 0, 4 * CAPACITY); o += 4 * CAPACITY;
    if (direct) { o = put32(o, 0x11120004); o = put32(o, 0x000700c0); o = put32(o, 0x80000000); o = put32(o, 9); o = put32(o, job.direct); }
    if (o < end) o = put32(o, 0x01020000);
    o = put32(o, 41u << 24 | (target / 8 - 1) << 16 | (limit ? 0x0401 : 0x0100));
    if (limit) o = put32(o, (u32)job.limit << 24 | 0x010100);
    o = put32(o, 0x110a0003); o = put32(o, 0x00074000); o = put32(o, job.number);
    if (limit) o = put32(o, 0x01020000);
    memcpy(o, p, job.length); o[7]--;
}
static u8 *visit(u32 k, u8 *exports) {
    const Visit *at = &job.visits[k];
    View v = view_of(at->node, at->time);
    v.hops = 64 - k;
    v.inward = inward[at->node];
    if (at->way != NOWHERE) v.outward = out_id[at->way];
    if (k) outer[7] -= at->way != NOWHERE;
    if (outer[6] == 0)
        for (u32 o = 42, end = 40 + (outer[41] + 1) * 8; o < end;) {
            if (outer[o] == 0) { o++; continue; }
            u32 kind = outer[o], count = outer[o + 1], space = be16(outer + o + 4);
            if ((kind == 0x31 || kind == 0x11) && count >= 10 && (space == 0 || (space == 7 && knows[at->node]))) {
                u8 *data = outer + o + 4;
                if (outer[o + 3] == 0 && kind == 0x31) fill(data, count - 2, &v);
                if (outer[o + 3] == 4) {
                    exports = put32(exports, 0x02c00022); exports = put32(exports, 0x00070080); exports = put16(exports, 0);
                    exports = put32(put64(exports, at->time), v.inward); exports = put32(put32(exports, 9), be32(data + 12));
                    exports = put32(exports, v.hops << 24 | v.id);
                }
            }
            o += 2 + count;
        }
    return exports;
}

/* ---- what is written ---- */
static Output ports[2], taps[2], report, records;
static u8 *lines(u8 *o, u64 number) {
    o = decimal(o, number);
    if (job.reason == FINE) o = word(word(o, " west left "), job.port == EAST ? "east" : "west");
    else { o = word(word(o, " west drop "), reasons[job.reason]); *o++ = ' '; *o++ = 'a' + job.where; }
    if (job.enclosed) {
        o = decimal(word(o, " flow f "), job.number);
        if (job.direct != ~0u) o = decimal(word(o, " direct "), job.direct);
    }
    *o++ = '\n';
    if (!job.exited) return o;
    return trace_lines(o, outer + 48, CAPACITY);
}
static u64 packets, left, seen[NODES], dropped[NODES], exited, direct, due, gaps, missed, late, repeats, window;
static void receive(u64 number) {
    if (number >= due) {
        u64 by = number + 1 - due;
        if (by > 1) { gaps++; missed += by - 1; }
        window = by >= 64 ? 1 : window << by | 1;
        due = number + 1;
    } else if (due - 1 - number < 64 && window >> (due - 1 - number) & 1) repeats++;
    else { late++; if (due - 1 - number < 64) window |= 1ull << (due - 1 - number); }
}
static void tell(void) {
    packets++;
    for (u32 k = 0; k < job.seen; k++) seen[k]++;
    if (job.reason == FINE) left++; else dropped[job.where]++;
    direct += job.enclosed && job.direct != ~0u;
    if (job.exited) { exited++; receive(job.number); }
    u8 *o = room(&report, 65536);
    report.count += lines(o, packets) - o;
}
static void tell_sums(void) {
    char *o = (char *)room(&report, 4096), *start = o;
    o += sprintf(o, "packets %lu left %lu dropped %lu\n", packets, left, packets - left);
    for (int i = 0; i < NODES; i++) o += sprintf(o, "node %c seen %lu dropped %lu\n", 'a' + i, seen[i], dropped[i]);
    o += sprintf(o, "flow f enclosed %u exited %lu direct %lu next %lu gaps %lu missed %lu late %lu repeats %lu\n",
        enclosed_so_far, exited, direct, due, gaps, missed, late, repeats);
    report.count += o - start;
}
static Output *tap(int way) { return way == AB ? &taps[0] : way == CD ? &taps[1] : 0; }
static void send_on(const u8 *p) {
    u64 last = job.visits[job.seen - 1].time;
    if (job.enclosed) enclose(p);
    for (u32 k = 0; k < job.kept; k++) {
        Output *to = tap(job.visits[k].way);
        if (job.enclosed) {
            u8 *o = room(&records, 64);
            records.count += visit(k, o) - o;
            if (to) put_packet(to, job.visits[k].time, outer, outer_length, 0);
        } else if (to) put_packet(to, job.visits[k].time, p, job.length, k + 1);
    }
    if (job.reason == FINE) {
        Output *to = &ports[job.port - WEST];
        if (job.enclosed) put_packet(to, last, outer + outer_length - job.length, job.length, 1);
        else put_packet(to, last, p, job.length, job.seen);
    }
}
int main(int count, char **words_of) {
    static const char *const names[] = { "west-out.pcap", "east-out.pcap", "ab.pcap", "cd.pcap" };
    if (count != 4) die("measured READINGS REPORT EXPORTS");
    read_readings(words_of[1]);
    open_input("west.pcap");
    for (int i = 0; i < 4; i++) open_capture(i < 2 ? &ports[i] : &taps[i - 2], names[i]);
    open_output(&report, words_of[2]);
    open_output(&records, words_of[3]);
    u64 time;
    u32 captured, original;
    for (const u8 *p; (p = next_record(&time, &captured, &original));) {
        int limit = -1, reason = admit(p, captured, original, &job.length, &limit);
        plan(time, reason, p, limit);
        send_on(p);
        tell();
    }
    tell_sums();
    for (int i = 0; i < 2; i++) { flush(&ports[i]); flush(&taps[i]); }
    flush(&report);
    flush(&records);
    return 0;
}
