/* What the yardsticks in C share (measured.c, and line.h for those along a line): octets, gathered outputs, an input in pieces,
 * a packet's headers, traces and their lines. It is included once TRACE, the flow's type of trace, NODES and FIRST are defined;
 * `node_named` tells the place of a node by its name in the readings. */
#include <fcntl.h>
#include <stdint.h>
#include <stdio.h>
#include <stdlib.h>
#include <string.h>
#include <unistd.h>
typedef uint8_t u8;
typedef uint32_t u32;
typedef uint64_t u64;
#define NET 0x20010db800000000ull

static void die(const char *what) { fprintf(stderr, "measured: %s\n", what); exit(1); }
static u32 be16(const u8 *p) { return p[0] << 8 | p[1]; }
static u32 be32(const u8 *p) { u32 v; memcpy(&v, p, 4); return __builtin_bswap32(v); }
static u64 be64(const u8 *p) { u64 v; memcpy(&v, p, 8); return __builtin_bswap64(v); }
static u8 *put16(u8 *p, u32 v) { p[0] = v >> 8; p[1] = v; return p + 2; }
static u8 *put32(u8 *p, u32 v) { v = __builtin_bswap32(v); memcpy(p, &v, 4); return p + 4; }
static u8 *put64(u8 *p, u64 v) { v = __builtin_bswap64(v); memcpy(p, &v, 8); return p + 8; }

/* ---- files: outputs that are gathered, an input that is read in pieces ---- */
enum { GATHER = 1 << 20, PIECE = 1 << 18 };
typedef struct { int fd; u32 count; u8 *octets; } Output;
static void open_output(Output *o, const char *name) {
    if ((o->fd = open(name, O_WRONLY | O_CREAT | O_TRUNC, 0666)) < 0) die(name);
    o->octets = malloc(GATHER);
    o->count = 0;
}
static void flush(Output *o) {
    for (u32 at = 0; at < o->count;) {
        ssize_t done = write(o->fd, o->octets + at, o->count - at);
        if (done <= 0) die("write");
        at += done;
    }
    o->count = 0;
}
static u8 *room(Output *o, u32 count) {
    if (o->count + count > GATHER) flush(o);
    return o->octets + o->count;
}
static struct { int fd, ended; u32 at, end; u8 octets[2 * PIECE + 262144 + 16]; } input;
static int have(u32 count) {
    while (input.end - input.at < count && !input.ended) {
        memmove(input.octets, input.octets + input.at, input.end - input.at);
        input.end -= input.at;
        input.at = 0;
        ssize_t got = read(input.fd, input.octets + input.end, PIECE);
        if (got < 0) die("read");
        input.ended = got == 0;
        input.end += got;
    }
    return input.end - input.at >= count;
}

/* ---- packets and their headers ---- */
enum { FINE, NOT_IPV6, CUT, LENGTH, CHAIN, IOAM_IN, LOCAL, HOP_LIMIT, NO_ROUTE, ENCAP_LIMIT, TOO_BIG, IOAM_OUT };
static const char *const reasons[] = { "", "not-ipv6", "cut", "length", "chain", "ioam-in", "local", "hop-limit", "no-route",
    "encap-limit", "too-big", "ioam-out" };
static int walk(const u8 *p, u32 length, int *limit) {
    u32 at = 40, next = p[6], first = 1, nested = 0, ioam = 0, size;
    for (;; first = 0) {
        if (next == 41) {
            if (length - at < 40 || p[at] >> 4 != 6) return CHAIN;
            next = p[at + 6]; at += 40; nested = 1;
            if (next == 0) { first = 1; goto options; }
            continue;
        }
        if (next == 44) {
            if (length - at < 8) return CHAIN;
            next = p[at]; size = be16(p + at + 2) >> 3; at += 8;
            if (size) return ioam ? IOAM_IN : FINE;
            continue;
        }
        if (next != 0 && next != 60 && next != 43) return ioam ? IOAM_IN : FINE;
options:
        if ((next == 0 && !first) || length - at < 8 || length - at < (size = (p[at + 1] + 1) * 8)) return CHAIN;
        if (next != 43)
            for (u32 o = at + 2; o < at + size;) {
                if (p[o] == 0) { o++; continue; }
                if (o + 2 > at + size || o + 2 + p[o + 1] > at + size) return CHAIN;
                if (p[o] == 0x11 || p[o] == 0x31) ioam = 1;
                if (p[o] == 4 && p[o + 1] == 1 && next == 60 && !nested && *limit < 0) *limit = p[o + 2];
                o += 2 + p[o + 1];
            }
        next = p[at]; at += size;
    }
}
/* The reason for which an arrival is dropped where it comes in, if it is; nodes have the addresses NET::FIRST and on. */
static int admit(const u8 *p, u32 captured, u32 original, u32 *length, int *limit) {
    if (captured == 0 || p[0] >> 4 != 6) return NOT_IPV6;
    if (captured < original) return CUT;
    if (captured < 40 || captured < 40 + be16(p + 4)) return LENGTH;
    *length = 40 + be16(p + 4);
    int reason = walk(p, *length, limit);
    if (reason) return reason;
    return be64(p + 24) == NET && be64(p + 32) - FIRST < NODES ? LOCAL : FINE;
}

/* ---- readings ---- */
typedef struct { u64 time, clock, delay; u32 queue, buffer; } Sample;
static Sample *samples[NODES];
static u32 sample_count[NODES];
static int node_named(const char *name);
static void read_readings(const char *name) {
    FILE *file = fopen(name, "rb");
    char node[32], delay[32], queue[32], buffer[32];
    u64 time, clock;
    if (!file) die(name);
    while (fscanf(file, " %31s %lu %lu %31s %31s %31s", node, &time, &clock, delay, queue, buffer) == 6) {
        int i = node_named(node);
        if (sample_count[i] % 64 == 0) samples[i] = realloc(samples[i], (sample_count[i] + 64) * sizeof(Sample));
        samples[i][sample_count[i]++] = (Sample){ time, clock, *delay == '-' ? ~0ull : strtoull(delay, 0, 10),
            *queue == '-' ? ~0u : strtoul(queue, 0, 10), *buffer == '-' ? ~0u : strtoul(buffer, 0, 10) };
    }
    fclose(file);
}
static const Sample *sample_at(int node, u64 time) {
    u32 low = 0, high = sample_count[node];
    while (low < high) {
        u32 middle = (low + high) / 2;
        if (samples[node][middle].time <= time) low = middle + 1; else high = middle;
    }
    return low ? samples[node] + low - 1 : 0;
}


/* ---- traces ---- */
#define HAS(kind, bit) ((kind) >> (23 - (bit)) & 1)
static u32 words(u32 kind) { return __builtin_popcount(kind >> 12 & 0xfff) + __builtin_popcount(kind >> 13 & 7); }
typedef struct {
    u32 hops, id, inward, outward, data, schema, opaque_words;
    u64 wide, clock;
    const u8 *opaque;
    const Sample *sample;
} View;
static View view_of(int node, u64 time) {
    View v = { 0, node + 1, ~0u, ~0u, ~0u, 0xffffff, 0, ~0ull, 0, 0, sample_at(node, time) };
    if (v.sample) v.clock = v.sample->clock + time - v.sample->time;
    return v;
}
static void element(u8 *o, u32 kind, u32 node_len, const View *v) {
    u8 *end = o + 4 * node_len;
    if (HAS(kind, 0)) o = put32(o, v->hops << 24 | v->id);
    if (HAS(kind, 1)) o = put32(o, v->inward << 16 | (v->outward & 0xffff));
    if (HAS(kind, 2)) o = put32(o, v->sample ? v->clock / 1000000000 : ~0u);
    if (HAS(kind, 3)) o = put32(o, v->sample ? v->clock % 1000000000 : ~0u);
    if (HAS(kind, 4)) o = put32(o, !v->sample || v->sample->delay == ~0ull ? ~0u : v->sample->delay > 0x7fffffff ? 0x80000000 : v->sample->delay);
    if (HAS(kind, 5)) o = put32(o, v->data);
    if (HAS(kind, 6)) o = put32(o, v->sample ? v->sample->queue : ~0u);
    if (HAS(kind, 7)) o = put32(o, ~0u);
    if (HAS(kind, 8)) o = put64(o, (u64)v->hops << 56 | v->id);
    if (HAS(kind, 9)) o = put64(o, (u64)v->inward << 32 | v->outward);
    if (HAS(kind, 10)) o = put64(o, v->wide);
    if (HAS(kind, 11)) o = put32(o, v->sample ? v->sample->buffer : ~0u);
    while (o < end) o = put32(o, ~0u);
    if (HAS(kind, 22)) memcpy(put32(o, v->opaque_words << 24 | v->schema), v->opaque, 4 * v->opaque_words);
}
static void fill(u8 *b, u32 count, const View *v) {
    u32 middle = be16(b + 2), node_len = middle >> 11, left = middle & 127, kind = be32(b + 4) >> 8;
    u32 undefined = __builtin_popcount(kind >> 2 & 0x3ff), size = node_len + HAS(kind, 22) * (1 + v->opaque_words);
    if (middle & 0x400 || count % 4 || left > (count - 8) / 4 || !(kind & 0xfffffe)) return;
    if (undefined ? node_len < words(kind) + undefined : node_len != words(kind)) return;
    if (size > left) { put16(b + 2, middle | 0x400); return; }
    put16(b + 2, middle - size);
    element(b + 8 + 4 * (left - size), kind, node_len, v);
}

/* ---- texts ---- */
static const u8 head[24] = { 0xa1, 0xb2, 0x3c, 0x4d, 0, 2, 0, 4, 0, 0, 0, 0, 0, 0, 0, 0, 0, 4, 0, 0, 0, 0, 0, 0x65 };
static void open_capture(Output *o, const char *name) {
    open_output(o, name);
    memcpy(o->octets, head, 24);
    o->count = 24;
}
static void open_input(const char *name) {
    if ((input.fd = open(name, O_RDONLY)) < 0) die(name);
    if (!have(24) || be32(input.octets) != 0xa1b23c4d || be32(input.octets + 20) != 101) die("the head of the capture");
    input.at = 24;
}
/* The octets of the next record, if there is one. */
static const u8 *next_record(u64 *time, u32 *captured, u32 *original) {
    if (!have(16)) return 0;
    const u8 *record = input.octets + input.at;
    *time = be32(record) * 1000000000ull + be32(record + 4);
    *captured = be32(record + 8);
    *original = be32(record + 12);
    if (*captured > 262144 || !have(16 + *captured)) die("a record");
    input.at += 16 + *captured;
    return input.octets + input.at - *captured;
}
static void put_packet(Output *to, u64 time, const u8 *p, u32 length, u32 less) {
    u8 *o = room(to, 16 + length);
    put32(put32(o, time / 1000000000), time % 1000000000);
    put32(put32(o + 8, length), length);
    memcpy(o + 16, p, length);
    o[16 + 7] -= less;
    to->count += 16 + length;
}
static u8 *word(u8 *o, const char *text) { size_t n = strlen(text); memcpy(o, text, n); return o + n; }
static u8 *decimal(u8 *o, u64 number) {
    u8 digits[20];
    int count = 0;
    do { digits[count++] = '0' + number % 10; number /= 10; } while (number);
    while (count) *o++ = digits[--count];
    return o;
}
static u8 *value(u8 *o, const char *name, u64 number, u64 none) {
    o = word(o, name);
    if (number == none) { *o = '-'; return o + 1; }
    return decimal(o, number);
}
static u8 *digits(u8 *o, const u8 *p, int count) {
    for (int i = 0; i < count; i++) { *o++ = "0123456789abcdef"[p[i] >> 4]; *o++ = "0123456789abcdef"[p[i] & 15]; }
    return o;
}
static u8 *hexadecimal(u8 *o, const char *name, const u8 *p, int count) {
    int ones = 1;
    for (int i = 0; i < count; i++) ones &= p[i] == 255;
    o = word(o, name);
    if (ones) { *o = '-'; return o + 1; }
    return digits(o, p, count);
}
static u8 *fields(u8 *o, const u8 *e) {
    if (HAS(TRACE, 0)) { o = decimal(word(o, " hop="), e[0]); o = value(o, " node=", be32(e) & 0xffffff, 0xffffff); e += 4; }
    if (HAS(TRACE, 1)) { o = value(o, " in=", be16(e), 65535); o = value(o, " out=", be16(e + 2), 65535); e += 4; }
    if (HAS(TRACE, 2)) { o = value(o, " sec=", be32(e), ~0u); e += 4; }
    if (HAS(TRACE, 3)) { o = value(o, " frac=", be32(e), ~0u); e += 4; }
    if (HAS(TRACE, 4)) { o = value(o, " delay=", be32(e), ~0u); e += 4; }
    if (HAS(TRACE, 5)) { o = hexadecimal(o, " data=", e, 4); e += 4; }
    if (HAS(TRACE, 6)) { o = value(o, " queue=", be32(e), ~0u); e += 4; }
    if (HAS(TRACE, 7)) { o = hexadecimal(o, " check=", e, 4); e += 4; }
    if (HAS(TRACE, 8)) { o = decimal(word(o, " whop="), e[0]); o = value(o, " wnode=", be64(e) << 8 >> 8, ~0ull >> 8); e += 8; }
    if (HAS(TRACE, 9)) { o = value(o, " win=", be32(e), ~0u); o = value(o, " wout=", be32(e + 4), ~0u); e += 8; }
    if (HAS(TRACE, 10)) { o = hexadecimal(o, " wdata=", e, 8); e += 8; }
    if (HAS(TRACE, 11)) { o = value(o, " buffer=", be32(e), ~0u); e += 4; }
    if (HAS(TRACE, 22)) {
        o = hexadecimal(o, " schema=", e + 1, 3);
        o = *e ? digits(word(o, " opaque="), e + 4, 4 * *e) : word(o, " opaque=-");
    }
    return o;
}
/* The lines of a trace of so many words, behind its header; elements stand from the newest on. */
static u8 *trace_lines(u8 *o, const u8 *b, u32 capacity) {
    u32 middle = be16(b + 2), at = 4 * (middle & 127), end = 4 * capacity, count = 0;
    static u8 places[128];
    while (at < end) {
        places[count++] = at / 4;
        at += 4 * (words(TRACE) + (HAS(TRACE, 22) ? 1 + b[8 + at + 4 * words(TRACE)] : 0));
    }
    o = decimal(word(o, "  trace "), be16(b));
    o = hexadecimal(o, " ", b + 4, 3);
    o = decimal(word(o, middle & 0x400 ? " overflow " : " whole "), count);
    *o++ = '\n';
    while (count--) {
        o = fields(word(o, "   "), b + 8 + 4 * places[count]);
        *o++ = '\n';
    }
    return o;
}
