/* walk IN OUT: a plain filter by hand, to measure `ioam filter` against. It reads a big-endian classic
 * capture of link type 101, walks the chain of headers of each packet (RFC 8200 section 4: 0, 60, 43,
 * 44 and 41), and keeps the whole packets without an option of type 0x11 or 0x31. It writes no report
 * and looks for no fault of the capture. */
#include <stdio.h>

static unsigned number(const unsigned char *at) {
    return (unsigned)at[0] << 24 | at[1] << 16 | at[2] << 8 | at[3];
}

/* whether the options fill their header and none is an IOAM option */
static int plain_options(const unsigned char *head, unsigned size) {
    for (unsigned at = 2; at < size;) {
        if (head[at] == 0) {
            at++;
            continue;
        }
        if (at + 2 > size || at + 2 + head[at + 1] > size || head[at] == 0x11 || head[at] == 0x31)
            return 0;
        at += 2 + head[at + 1];
    }
    return 1;
}

static int may_leave(const unsigned char *packet, unsigned have) {
    unsigned at = 0, next = 41, behind_ip = 0, size;
    if (have < 40 || packet[0] >> 4 != 6 || have < 40u + (packet[4] << 8 | packet[5]))
        return 0;
    have = 40 + (packet[4] << 8 | packet[5]);
    for (;;) {
        switch (next) {
        case 41:
            if (have - at < 40 || packet[at] >> 4 != 6)
                return 0;
            next = packet[at + 6];
            at += 40;
            behind_ip = 1;
            break;
        case 0:
            if (!behind_ip)
                return 0;
            /* fall through */
        case 60:
        case 43:
            if (have - at < 8)
                return 0;
            size = (packet[at + 1] + 1) * 8;
            if (have - at < size || (next != 43 && !plain_options(packet + at, size)))
                return 0;
            next = packet[at];
            at += size;
            behind_ip = 0;
            break;
        case 44:
            if (have - at < 8)
                return 0;
            if ((packet[at + 2] << 8 | packet[at + 3]) >> 3)
                return 1;
            next = packet[at];
            at += 8;
            behind_ip = 0;
            break;
        default:
            return 1;
        }
    }
}

int main(int count, char **words) {
    static unsigned char head[24], record[16], packet[262144];
    static char in_room[1 << 20], out_room[1 << 20];
    FILE *in = count == 3 ? fopen(words[1], "rb") : NULL, *out = in ? fopen(words[2], "wb") : NULL;
    unsigned long kept = 0, all = 0;
    if (!out || setvbuf(in, in_room, _IOFBF, sizeof in_room) || setvbuf(out, out_room, _IOFBF, sizeof out_room))
        return 1;
    if (fread(head, sizeof head, 1, in) != 1)
        return 1;
    fwrite(head, sizeof head, 1, out);
    while (fread(record, sizeof record, 1, in) == 1) {
        unsigned size = number(record + 8);
        if (size > sizeof packet || fread(packet, 1, size, in) != size)
            return 1;
        all++;
        if (number(record + 12) == size && may_leave(packet, size)) {
            fwrite(record, sizeof record, 1, out);
            fwrite(packet, 1, size, out);
            kept++;
        }
    }
    printf("%lu of %lu\n", kept, all);
    return fclose(out) != 0;
}
