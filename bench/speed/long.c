/* long READINGS REPORT EXPORTS: what `ioam run` does along a line of make_line.py, as a C programmer would write it by hand:
 * one thread, packet by packet, each node's options scanned. It reads west.pcap and writes null1 and null2 beside REPORT and
 * EXPORTS. A yardstick of speed, for bench/speed/long.sh, which also compares all four files. It is compiled for one line, as line.h
 * says. */
#include "line.h"

/* ---- what arrives, and its way: from the first node to the last ---- */
static struct { int reason, where, enclosed; u32 number, length, seen; } job;
static u32 enclosed_so_far;
static void plan(int reason, const u8 *p) {
    job.enclosed = 0;
    job.seen = 1;
    job.reason = reason;
    job.where = 0;
    if (reason) return;
    int is_flow = be64(p + 24) >> 16 == (NET >> 16 | 2);
    if (p[7] <= 1) job.reason = HOP_LIMIT;
    else if (!is_flow) job.reason = NO_ROUTE;
    else if (40 + HOP + job.length > 1500) job.reason = TOO_BIG;
    if (job.reason) return;
    job.enclosed = 1;
    job.number = enclosed_so_far++;
    job.seen = NODES;
    if (p[7] <= 2) { job.reason = HOP_LIMIT; job.where = NODES - 1; }
}

static u8 outer[80000];

/* ---- what is written ---- */
static Output ports[2], report, records;
static u8 *lines(u8 *o, u64 number) {
    o = decimal(o, number);
    if (job.reason == FINE) o = word(o, " west left east");
    else { o = word(word(o, " west drop "), reasons[job.reason]); o = decimal(word(o, " n"), job.where + 1); }
    if (job.enclosed) {
        o = decimal(word(o, " flow f "), job.number);
        if (DIRECT) o = decimal(word(o, " direct "), job.number);
    }
    *o++ = '\n';
    return job.enclosed && TRACE ? trace_lines(o, outer + 48, CAPACITY) : o;
}
static u64 packets, left, seen[NODES], dropped[NODES];
static void tell(void) {
    packets++;
    for (u32 k = 0; k < job.seen; k++) seen[k]++;
    if (job.reason == FINE) left++; else dropped[job.where]++;
    u8 *o = room(&report, 65536);
    report.count += lines(o, packets) - o;
}
static void tell_sums(void) {
    char *o = (char *)room(&report, 65536), *start = o;
    o += sprintf(o, "packets %lu left %lu dropped %lu\n", packets, left, packets - left);
    for (int i = 0; i < NODES; i++) o += sprintf(o, "node n%d seen %lu dropped %lu\n", i + 1, seen[i], dropped[i]);
    o += sprintf(o, "flow f enclosed %u exited %u direct %u\n", enclosed_so_far, enclosed_so_far, DIRECT ? enclosed_so_far : 0);
    report.count += o - start;
}
static void send_on(const u8 *p, u64 time) {
    u32 length = enclose(outer, p, job.length, job.number);
    for (u32 k = 0; k < NODES; k++, time += 1000) {
        u8 *o = room(&records, 1024);
        records.count += visit(outer, k, time, o) - o;
    }
    if (job.reason == FINE) put_packet(&ports[1], time - 1000, outer + length - job.length, job.length, 1);
}
int main(int count, char **words_of) {
    if (count != 4) die("long READINGS REPORT EXPORTS");
    read_readings(words_of[1]);
    open_input("west.pcap");
    open_capture(&ports[0], "null1");
    open_capture(&ports[1], "null2");
    open_output(&report, words_of[2]);
    open_output(&records, words_of[3]);
    u64 time;
    u32 captured, original;
    for (const u8 *p; (p = next_record(&time, &captured, &original));) {
        int limit = -1;
        plan(admit(p, captured, original, &job.length, &limit), p);
        if (job.enclosed) send_on(p, time);
        tell();
    }
    tell_sums();
    flush(&ports[0]); flush(&ports[1]); flush(&report); flush(&records);
    return 0;
}
