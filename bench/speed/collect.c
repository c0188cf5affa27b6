/* A yardstick for `ioam collect`: the same report of export records of type 0x800000 with both numbers, in plain C. All records
 * are sorted by key, falling hop value and octets, and what repeats a neighbour is dropped:
 *     collect EXPORTS REPORT
 */
#include <stdint.h>
#include <stdio.h>
#include <stdlib.h>
#include <string.h>

typedef struct { const uint8_t *at; uint64_t key; uint32_t seq; uint8_t hops, whole; } Record;

static uint32_t two(const uint8_t *p) { return (uint32_t)p[0] << 8 | p[1]; }
static uint32_t four(const uint8_t *p) { return two(p) << 16 | two(p + 2); }
static uint64_t eight(const uint8_t *p) { return (uint64_t)four(p) << 32 | four(p + 4); }

/* Where what both versions have goes on behind the visit. */
static const uint8_t *behind(const Record *r) { return r->at + (r->whole ? 22 : 10); }

/* By key, falling hop value and the octets of the version 1 record. */
static int cores(const Record *a, const Record *b) {
    if (a->key != b->key) return a->key < b->key ? -1 : 1;
    if (a->seq != b->seq) return a->seq < b->seq ? -1 : 1;
    if (a->hops != b->hops) return a->hops > b->hops ? -1 : 1;
    int flags = memcmp(a->at + 6, b->at + 6, 1);
    return flags ? flags : memcmp(behind(a), behind(b), 12);
}

/* Then by the visit, those without one first. */
static int order(const void *one, const void *other) {
    const Record *a = one, *b = other;
    int core = cores(a, b);
    if (core) return core;
    if (!a->whole || !b->whole) return a->whole - b->whole;
    return memcmp(a->at + 10, b->at + 10, 12);
}

static char *text(char *to, const char *from) {
    size_t size = strlen(from);
    memcpy(to, from, size);
    return to + size;
}

static char *decimal(char *to, uint64_t number) {
    char digits[20];
    int n = 0;
    do digits[n++] = '0' + number % 10; while (number /= 10);
    while (n) *to++ = digits[--n];
    return to;
}

static uint8_t *read_all(const char *name, size_t *size) {
    FILE *file = fopen(name, "rb");
    if (!file) exit(1);
    fseek(file, 0, SEEK_END);
    *size = ftell(file);
    rewind(file);
    uint8_t *octets = malloc(*size + 1);
    if (!octets || fread(octets, 1, *size, file) != *size) exit(1);
    fclose(file);
    return octets;
}

static Record record_at(const uint8_t *r) {
    int whole = r[0] == 2;
    const uint8_t *numbers = r + (whole ? 22 : 10);
    return (Record){r, (uint64_t)two(r + 4) << 32 | four(numbers), four(numbers + 4), numbers[8], whole};
}

/* Drops what repeats another record or is one without its visit. */
static size_t keep_best(Record *records, size_t count) {
    size_t kept = 0;
    for (size_t i = 0; i < count; i++) {
        if (kept && !order(&records[kept - 1], &records[i])) continue;
        if (kept && !records[kept - 1].whole && !cores(&records[kept - 1], &records[i])) kept--;
        records[kept++] = records[i];
    }
    return kept;
}

static char *put_record(char *to, const Record *r) {
    to = decimal(text(to, "  800000 hop="), r->hops);
    to = decimal(text(to, " node="), four(behind(r) + 8) & 0xffffff);
    if (r->whole) {
        to = decimal(text(to, " at="), eight(r->at + 10));
        to = decimal(text(to, " from="), four(r->at + 18));
    }
    *to++ = '\n';
    return to;
}

static char *put_group(char *to, const Record *first, size_t count) {
    to = decimal(text(to, "group "), first->key >> 32);
    to = decimal(text(to, " "), first->key & 0xffffffff);
    to = decimal(text(to, " "), first->seq);
    to = text(decimal(text(to, " "), count), "\n");
    for (size_t i = 0; i < count; i++) to = put_record(to, first + i);
    return to;
}

int main(int count, char **words) {
    size_t size, read = 0, end;
    if (count != 3) return 1;
    uint8_t *octets = read_all(words[1], &size);
    Record *records = malloc((size / 22 + 1) * sizeof *records);
    for (size_t at = 0; at + 22 <= size; at += two(octets + at + 2)) records[read++] = record_at(octets + at);
    qsort(records, read, sizeof *records, order);
    size_t kept = keep_best(records, read);
    char *out = malloc(kept * 192 + 128), *to = out;
    for (size_t i = 0; i < kept; i = end) {
        for (end = i + 1; end < kept && records[end].key == records[i].key && records[end].seq == records[i].seq; end++) {}
        to = put_group(to, records + i, end - i);
    }
    to += sprintf(to, "records %zu kept %zu repeats %zu unkeyed 0\n", read, kept, read - kept);
    FILE *report = fopen(words[2], "wb");
    if (!report || fwrite(out, 1, to - out, report) != (size_t)(to - out) || fclose(report)) return 1;
    return 0;
}
