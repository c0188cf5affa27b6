/* A yardstick for `ioam ipfix` and `ioam records`: export records to messages of IPFIX (RFC 7011) and back, in plain C, over files
 * without faults. What it writes is the same octet for octet:
 *     messages write EXPORTS OUT
 *     messages read IN EXPORTS
 */
#include <stdint.h>
#include <stdio.h>
#include <stdlib.h>
#include <string.h>

typedef uint8_t u8;
enum { RUN = 32, ENTERPRISE = 32473 };

static uint32_t two(const u8 *p) { return (uint32_t)p[0] << 8 | p[1]; }
static u8 *put2(u8 *o, uint32_t v) { o[0] = v >> 8; o[1] = v; return o + 2; }
static u8 *put4(u8 *o, uint32_t v) { return put2(put2(o, v >> 16), v); }
static u8 *put(u8 *o, const u8 *from, size_t count) { memcpy(o, from, count); return o + count; }

/* A template (section 3.4.1): of the bits of its id, 4 stands for a flow, 2 for a sequence number, 1 for a visit. */
static u8 *put_template(u8 *o, int bits) {
    static const int length[10] = { 0, 2, 1, 1, 3, 8, 4, 4, 4, 65535 };
    int visit = bits & 1, flow = bits >> 2, number = bits >> 1 & 1;
    int there[10] = { 0, 1, 1, 1, 1, visit, visit, flow, number, 1 };
    o = put2(put2(o, 256 + bits), 5 + 2 * visit + flow + number);
    for (int i = 1; i < 10; i++) if (there[i]) o = put4(put2(put2(o, 0x8000 | i), length[i]), ENTERPRISE);
    return o;
}

/* The head of a message, once its octets are known (section 3.1), and of its one set. */
static void put_heads(u8 *message, const u8 *end, uint32_t count, uint32_t set) {
    put4(put4(put4(put2(put2(message, 10), end - message), 0), count), 0);
    put2(put2(message + 16, set), end - message - 16);
}

static int bits_of(const u8 *record) { return 4 * (record[1] >> 7) + 2 * (record[1] >> 6 & 1) + (record[0] == 2); }

/* A record as a data record. */
static u8 *put_data(u8 *o, const u8 *record, uint32_t size) {
    uint32_t front = record[0] == 2 ? 22 : 10, numbers = 4 * (record[1] >> 7) + 4 * (record[1] >> 6 & 1);
    o = put(o, record + 4, 3);
    *o++ = record[1];
    o = put(o, record + 7, front + numbers - 7);
    *o++ = size - front - numbers;
    return put(o, record + front + numbers, size - front - numbers);
}

static u8 *write_all(u8 *o, const u8 *in, const u8 *end) {
    u8 *message = o;
    uint32_t count = 0;
    o += 20;
    for (int bits = 0; bits < 8; bits++) o = put_template(o, bits);
    put_heads(message, o, 0, 2);
    while (in < end) {
        int bits = bits_of(in), run = 0;
        message = o;
        o += 20;
        for (; in < end && run < RUN && bits_of(in) == bits; run++) {
            uint32_t size = two(in + 2);
            o = put_data(o, in, size);
            in += size;
        }
        put_heads(message, o, count, 256 + bits);
        count += run;
    }
    return o;
}

/* A data record as a record; the octets behind it. */
static const u8 *put_record(u8 **to, const u8 *in, int bits) {
    u8 *record = *to, *o = record + 4;
    uint32_t numbers = 12 * (bits & 1) + 4 * (bits >> 2) + 4 * (bits >> 1 & 1), size = in[7 + numbers];
    const u8 *element = in + 8 + numbers;
    if (size == 255) { size = two(element); element += 2; }
    o = put(put(put(o, in, 3), in + 4, 3 + numbers), element, size);
    record[0] = 1 + (bits & 1);
    record[1] = in[3];
    put2(record + 2, o - record);
    *to = o;
    return element + size;
}

static u8 *read_all(u8 *o, const u8 *in, const u8 *end) {
    while (in < end) {
        const u8 *behind = in + two(in + 2);
        for (in += 16; in < behind;) {
            const u8 *past = in + two(in + 2);
            int set = two(in);
            if (set >= 256 && set < 264) for (in += 4; past - in >= 8;) in = put_record(&o, in, set - 256);
            in = past;
        }
    }
    return o;
}

int main(int count, char **words) {
    FILE *file = count == 4 ? fopen(words[2], "rb") : 0;
    if (!file || fseek(file, 0, SEEK_END)) return 1;
    size_t size = ftell(file);
    rewind(file);
    u8 *in = malloc(size + 1), *out = malloc(3 * size + 1024), *end;
    if (!in || !out || fread(in, 1, size, file) != size) return 1;
    end = (*words[1] == 'w' ? write_all : read_all)(out, in, in + size);
    file = fopen(words[3], "wb");
    return !file || fwrite(out, 1, end - out, file) != (size_t)(end - out) || fclose(file);
}
