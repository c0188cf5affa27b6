/* library <PACKETS >REPORT: the report of `ioam show` over packets, by the calls of include/ioam.h. Each packet is its count of octets
 * as four octets, the first the most significant, and then the octets. */
#include <inttypes.h>
#include <ioam.h>
#include <stdio.h>
#include <stdlib.h>

static const char *gap;

static void number(const char *name, uint32_t value, uint32_t ones) {
    if (value == ones) printf("%s%s=-", gap, name);
    else printf("%s%s=%" PRIu32, gap, name, value);
    gap = " ";
}

static void digits(const char *name, uint64_t value, int size) {
    if (value == UINT64_MAX >> (64 - 4 * size)) printf("%s%s=-", gap, name);
    else printf("%s%s=%0*" PRIx64, gap, name, size, value);
    gap = " ";
}

static void hexadecimal(const uint8_t *octets, size_t n) {
    if (n == 0) putchar('-');
    for (size_t i = 0; i < n; i++) printf("%02x", octets[i]);
}

static void early_fields(const struct ioam_element *e) {
    if (e->has_hop_node) {
        printf("%shop=%u", gap, e->hop_limit);
        gap = " ";
        number("node", e->node_id, 0xffffff);
    }
    if (e->has_interfaces) {
        number("in", e->ingress, 0xffff);
        number("out", e->egress, 0xffff);
    }
    if (e->has_seconds) number("sec", e->seconds, UINT32_MAX);
    if (e->has_fraction) number("frac", e->fraction, UINT32_MAX);
    if (e->has_delay) number("delay", e->delay, UINT32_MAX);
    if (e->has_short_data) digits("data", e->short_data, 8);
    if (e->has_queue) number("queue", e->queue, UINT32_MAX);
    if (e->has_checksum) digits("check", e->checksum, 8);
}

static void wide_fields(const struct ioam_element *e) {
    if (e->has_wide_hop_node) {
        printf("%swhop=%u wnode=", gap, e->wide_hop_limit);
        if (e->wide_node_id == UINT64_MAX >> 8) putchar('-');
        else printf("%" PRIu64, e->wide_node_id);
        gap = " ";
    }
    if (e->has_wide_interfaces) {
        number("win", e->wide_ingress, UINT32_MAX);
        number("wout", e->wide_egress, UINT32_MAX);
    }
    if (e->has_wide_data) digits("wdata", e->wide_data, 16);
    if (e->has_buffer) number("buffer", e->buffer, UINT32_MAX);
}

static void print_element(const uint8_t *data, const struct ioam_element *e) {
    gap = "    ";
    early_fields(e);
    wide_fields(e);
    for (size_t at = e->fill; at < e->fill + e->fill_length; at += 4) {
        printf("%sfill=", gap);
        hexadecimal(data + at, 4);
        gap = " ";
    }
    if (e->has_snapshot) {
        digits("schema", e->schema, 6);
        printf(" opaque=");
        hexadecimal(data + e->opaque, e->opaque_length);
    }
    putchar('\n');
}

static void print_trace(int incremental, const uint8_t *data, size_t n) {
    struct ioam_trace_head head;
    struct ioam_element element;
    size_t cursor = n;
    uint32_t status = incremental ? ioam_incremental_head(data, n, &head) : ioam_trace_head(data, n, &head);
    if (status != IOAM_OK) {
        printf("bad %d\n", incremental);
        return;
    }
    printf("%s %u %06" PRIx32 " flags %u remaining %u\n", incremental ? "incremental" : "trace", head.namespace_id, head.type, head.flags,
           head.remaining);
    while ((status = incremental ? ioam_incremental_element(data, n, &cursor, &element)
                                 : ioam_trace_element(data, n, &cursor, &element)) == IOAM_OK)
        print_element(data, &element);
    if (status != IOAM_END) abort();
}

static void print_edge(const uint8_t *data, size_t n) {
    struct ioam_edge edge;
    if (ioam_edge_read(data, n, &edge) != IOAM_OK) {
        puts("bad 3");
        return;
    }
    printf("edge %u %04x", edge.namespace_id, edge.type);
    gap = " ";
    if (edge.has_seq64) printf(" seq64=%" PRIu64, edge.seq64);
    if (edge.has_seq32) printf(" seq32=%" PRIu32, edge.seq32);
    if (edge.has_seconds) number("sec", edge.seconds, UINT32_MAX);
    if (edge.has_fraction) number("frac", edge.fraction, UINT32_MAX);
    putchar('\n');
}

static void print_direct(const uint8_t *data, size_t n) {
    struct ioam_direct direct;
    if (ioam_direct_read(data, n, &direct) != IOAM_OK) {
        puts("bad 4");
        return;
    }
    printf("direct %u %06" PRIx32 " flags %u", direct.namespace_id, direct.type, direct.flags);
    if (direct.has_flow) printf(" flow=%" PRIu32, direct.flow);
    if (direct.has_seq) printf(" seq=%" PRIu32, direct.seq);
    putchar('\n');
}

static void print_option(const uint8_t *packet, const struct ioam_option *option) {
    const uint8_t *data = packet + option->data;
    printf("  %02x at %zu ", option->type, option->offset);
    if (!option->has_option_type) {
        puts("short");
        return;
    }
    switch (option->option_type) {
    case IOAM_PREALLOCATED_TRACE:
    case IOAM_INCREMENTAL_TRACE: print_trace(option->option_type, data, option->length); return;
    case IOAM_EDGE_TO_EDGE: print_edge(data, option->length); return;
    case IOAM_DIRECT_EXPORT: print_direct(data, option->length); return;
    case IOAM_PROOF_OF_TRANSIT: printf("proof "); break;
    default: printf("other %u ", option->option_type);
    }
    hexadecimal(data, option->length);
    putchar('\n');
}

static void print_packet(unsigned long place, const uint8_t *packet, size_t n) {
    struct ioam_option option;
    size_t cursor = 0, at = 0, count = 0;
    uint32_t status = ioam_check(packet, n, &at), last;
    while ((last = ioam_next_option(packet, n, &cursor, &option)) == IOAM_OK) count++;
    if (last != (status == IOAM_OK ? IOAM_END : status)) abort();
    if (status != IOAM_OK) {
        printf("%lu skip %s\n", place, status == IOAM_NOT_IPV6 ? "not-ipv6" : status == IOAM_LENGTH ? "length" : "chain");
        return;
    }
    printf("%lu options %zu\n", place, count);
    for (cursor = 0; ioam_next_option(packet, n, &cursor, &option) == IOAM_OK;) print_option(packet, &option);
}

int main(void) {
    unsigned long place = 0;
    uint8_t size[4];
    while (fread(size, 4, 1, stdin) == 1) {
        size_t n = (size_t)size[0] << 24 | size[1] << 16 | size[2] << 8 | size[3];
        /* room of just as many octets, so that the sanitizers see each that is read past them */
        uint8_t *packet = malloc(n ? n : 1);
        if (!packet || fread(packet, 1, n, stdin) != n) return EXIT_FAILURE;
        print_packet(++place, packet, n);
        free(packet);
    }
    printf("packets %lu\n", place);
    return EXIT_SUCCESS;
}
