/* library lib|hand fill|elements COUNT TYPE: fills a trace of TYPE COUNT times, or reads its four elements COUNT times, by the calls of
 * include/ioam.h or by hand, to measure the one against the other. `by hand` is what Linux does in ioam6_fill_trace_data (RFC 9197 section
 * 4.4): a word for each bit of the type, the first bit first, without a look at the rest of the trace. */
#include <ioam.h>
#include <stdio.h>
#include <stdlib.h>
#include <string.h>

#define CAPACITY 60

static unsigned number16(const uint8_t *at) { return (unsigned)at[0] << 8 | at[1]; }
static uint32_t number32(const uint8_t *at) { return (uint32_t)number16(at) << 16 | number16(at + 2); }
static uint64_t number64(const uint8_t *at) { return (uint64_t)number32(at) << 32 | number32(at + 4); }

static uint8_t *put32(uint8_t *at, uint32_t value) {
    at[0] = value >> 24, at[1] = value >> 16, at[2] = value >> 8, at[3] = value;
    return at + 4;
}

static uint8_t *put64(uint8_t *at, uint64_t value) { return put32(put32(at, value >> 32), (uint32_t)value); }

static uint32_t narrow(uint8_t has, uint32_t face) { return has && face < 0x10000 ? face : 0xffff; }
static uint32_t or_ones(uint8_t has, uint32_t value) { return has ? value : UINT32_MAX; }

__attribute__((noinline)) static uint32_t fill_by_hand(uint8_t *data, size_t n, const struct ioam_view *v) {
    uint32_t type = number32(data + 4) >> 8;
    unsigned middle = number16(data + 2), words = middle >> 11, remaining = middle & 127;
    if (middle & 0x400) return IOAM_ALREADY_OVER;
    if (type & 2) words += 1 + (v->has_snapshot ? v->opaque_words : 0);
    if (8 + 4 * remaining > n) return IOAM_UNSUITED;
    if (words > remaining) {
        data[2] |= 4;
        return IOAM_OVERFLOWED;
    }
    uint8_t *at = data + 8 + 4 * (remaining - words);
    uint32_t id = v->node_id < 0x1000000 ? (uint32_t)v->node_id : 0xffffff;
    if (type & 0x800000) at = put32(at, (uint32_t)v->hop_limit << 24 | id);
    if (type & 0x400000) at = put32(at, narrow(v->has_ingress, v->ingress) << 16 | narrow(v->has_egress, v->egress));
    if (type & 0x200000) at = put32(at, or_ones(v->has_timestamp, v->seconds));
    if (type & 0x100000) at = put32(at, or_ones(v->has_timestamp, v->fraction));
    if (type & 0x080000) at = put32(at, !v->has_delay ? UINT32_MAX : v->delay > 0x7fffffff ? 0x80000000 : (uint32_t)v->delay);
    if (type & 0x040000) at = put32(at, or_ones(v->has_short_data, v->short_data));
    if (type & 0x020000) at = put32(at, or_ones(v->has_queue, v->queue));
    if (type & 0x010000) at = put32(at, UINT32_MAX);
    if (type & 0x008000) at = put64(at, (uint64_t)v->hop_limit << 56 | v->node_id);
    if (type & 0x004000) at = put32(put32(at, or_ones(v->has_ingress, v->ingress)), or_ones(v->has_egress, v->egress));
    if (type & 0x002000) at = put64(at, v->has_wide_data ? v->wide_data : UINT64_MAX);
    if (type & 0x001000) at = put32(at, or_ones(v->has_buffer, v->buffer));
    if (type & 2) {
        at = put32(at, v->has_snapshot ? (uint32_t)v->opaque_words << 24 | v->schema : 0xffffff);
        if (v->has_snapshot) memcpy(at, v->opaque, 4 * v->opaque_words);
    }
    middle -= words;
    data[2] = middle >> 8, data[3] = middle;
    return IOAM_OK;
}

/* The element that ends at an offset, where all have one size. */
__attribute__((noinline)) static uint32_t element_by_hand(const uint8_t *data, size_t n, size_t *cursor, struct ioam_element *e) {
    uint32_t type = number32(data + 4) >> 8;
    size_t size = 4 * (number16(data + 2) >> 11), start = 8 + 4 * (number16(data + 2) & 127);
    if (*cursor > n || *cursor < start + size || size == 0) return IOAM_END;
    const uint8_t *at = data + *cursor - size;
    memset(e, 0, sizeof *e);
    e->offset = *cursor - size, e->length = size;
    if (type & 0x800000) e->has_hop_node = 1, e->hop_limit = at[0], e->node_id = number32(at) & 0xffffff, at += 4;
    if (type & 0x400000) e->has_interfaces = 1, e->ingress = number16(at), e->egress = number16(at + 2), at += 4;
    if (type & 0x200000) e->has_seconds = 1, e->seconds = number32(at), at += 4;
    if (type & 0x100000) e->has_fraction = 1, e->fraction = number32(at), at += 4;
    if (type & 0x080000) e->has_delay = 1, e->delay = number32(at), at += 4;
    if (type & 0x040000) e->has_short_data = 1, e->short_data = number32(at), at += 4;
    if (type & 0x020000) e->has_queue = 1, e->queue = number32(at), at += 4;
    if (type & 0x010000) e->has_checksum = 1, e->checksum = number32(at), at += 4;
    if (type & 0x008000) e->has_wide_hop_node = 1, e->wide_hop_limit = at[0], e->wide_node_id = number64(at) & UINT64_MAX >> 8, at += 8;
    if (type & 0x004000) e->has_wide_interfaces = 1, e->wide_ingress = number32(at), e->wide_egress = number32(at + 4), at += 8;
    if (type & 0x002000) e->has_wide_data = 1, e->wide_data = number64(at), at += 8;
    if (type & 0x001000) e->has_buffer = 1, e->buffer = number32(at), at += 4;
    *cursor -= size;
    return IOAM_OK;
}

static unsigned words_of(uint32_t type) {
    unsigned words = 0;
    for (unsigned bit = 0; bit < 12; bit++)
        if (type & 0x800000 >> bit) words += bit >= 8 && bit <= 10 ? 2 : 1;
    return words;
}

static void begin_trace(uint8_t *data, uint32_t type) {
    unsigned middle = words_of(type) << 11 | CAPACITY;
    memset(data, 0, 8 + 4 * CAPACITY);
    data[1] = 7, data[2] = middle >> 8, data[3] = middle;
    put32(data + 4, type << 8);
}

int main(int count, char **words) {
    static uint8_t data[8 + 4 * CAPACITY];
    struct ioam_view view = {.node_id = 0x123456, .hop_limit = 61, .ingress = 7, .egress = 9, .seconds = 1, .fraction = 2, .delay = 3,
                             .has_ingress = 1, .has_egress = 1, .has_timestamp = 1, .has_delay = 1};
    struct ioam_element element;
    unsigned long sum = 0;
    if (count != 5) return EXIT_FAILURE;
    int by_hand = !strcmp(words[1], "hand");
    uint32_t type = (uint32_t)strtoul(words[4], NULL, 16);
    begin_trace(data, type);
    uint8_t front[8];
    memcpy(front, data, 8);
    if (strcmp(words[2], "fill"))
        for (int i = 0; i < 4; i++) ioam_fill(data, sizeof data, &view);
    for (unsigned long left = strtoul(words[3], NULL, 10); left > 0; left--) {
        if (!strcmp(words[2], "fill")) {
            memcpy(data, front, 8);
            sum += by_hand ? fill_by_hand(data, sizeof data, &view) : ioam_fill(data, sizeof data, &view);
            continue;
        }
        size_t cursor = sizeof data;
        while ((by_hand ? element_by_hand(data, sizeof data, &cursor, &element) : ioam_trace_element(data, sizeof data, &cursor, &element)) ==
               IOAM_OK)
            sum += element.node_id + element.length;
    }
    printf("%lu\n", sum);
    return EXIT_SUCCESS;
}
