/* A yardstick for `ioam merge`: two parts of export records with both numbers, of types with bit 0, merged side by side in plain C.
 * What it writes is the same octet for octet:
 *     merge_parts ONE TWO PART
 */
#include <stdint.h>
#include <stdio.h>
#include <stdlib.h>
#include <string.h>

typedef uint8_t u8;
typedef struct { const u8 *at; uint32_t left; } Part;

static uint32_t two(const u8 *p) { return (uint32_t)p[0] << 8 | p[1]; }
static int is_visited(const u8 *r) { return r[0] == 2; }
/* Where flow, sequence number and element stand. */
static const u8 *behind(const u8 *r) { return r + (is_visited(r) ? 22 : 10); }
static size_t core_size(const u8 *r) { return two(r + 2) - (is_visited(r) ? 12 : 0); }

/* By key, falling hop value, and the octets of the record without its visit. */
static int cores(const u8 *a, const u8 *b) {
    const u8 *x = behind(a), *y = behind(b);
    size_t size = core_size(a), other = core_size(b);
    int order = memcmp(a + 4, b + 4, 2);
    if (!order) order = memcmp(x, y, 8);
    if (!order) order = y[8] - x[8];
    if (!order) order = a[1] - b[1];
    if (!order) order = size < other ? -1 : size > other;
    if (!order) order = memcmp(a + 6, b + 6, 4);
    return order ? order : memcmp(x, y, size - 10);
}

static u8 *read_file(const char *name, size_t *size) {
    FILE *file = fopen(name, "rb");
    if (!file || fseek(file, 0, SEEK_END)) exit(1);
    *size = ftell(file);
    rewind(file);
    u8 *octets = malloc(*size + 1);
    if (!octets || fread(octets, 1, *size, file) != *size) exit(1);
    fclose(file);
    return octets;
}

static void pass(Part *part) { part->at += two(part->at + 2); part->left--; }

/* Which of two parts has the next record: that of the least, and of two that say the same the one with its visit. The other passes
 * what it says again. */
static Part *next_of(Part *one, Part *other) {
    if (!one->left || !other->left) return one->left ? one : other;
    int order = cores(one->at, other->at), visited = is_visited(one->at);
    if (order) return order < 0 ? one : other;
    if (visited == is_visited(other->at)) {
        order = visited ? memcmp(one->at + 10, other->at + 10, 12) : 0;
        if (order) return order < 0 ? one : other;
        pass(other);
        return one;
    }
    if (visited) pass(other); else pass(one);
    return 0;
}

int main(int count, char **words) {
    size_t size[2];
    if (count != 4) return 1;
    Part parts[2];
    for (int i = 0; i < 2; i++) {
        const u8 *octets = read_file(words[1 + i], &size[i]);
        parts[i] = (Part){octets + 12, two(octets + 8) << 16 | two(octets + 10)};
    }
    u8 *out = malloc(size[0] + size[1]), *to = out + 12;
    uint32_t kept = 0;
    if (!out) return 1;
    while (parts[0].left || parts[1].left) {
        Part *next = next_of(&parts[0], &parts[1]);
        if (!next) continue;
        memcpy(to, next->at, two(next->at + 2));
        to += two(next->at + 2);
        pass(next);
        kept++;
    }
    memcpy(out, "IOAMPART", 8);
    for (int i = 0; i < 4; i++) out[8 + i] = kept >> (24 - 8 * i);
    FILE *file = fopen(words[3], "wb");
    return !file || fwrite(out, 1, to - out, file) != (size_t)(to - out) || fclose(file);
}
