/* Lists the traces of IPv6 packets: ./traces FILE.. where each FILE is the octets of one packet. */
#include <ioam.h>
#include <stdio.h>
#include <stdlib.h>

static const char *const names[] = {"ok",      "end",    "not-ipv6", "length", "chain",      "short",        "space",
                                    "node-len", "element", "record", "view",     "overflowed", "already-over", "unsuited"};

static void print_element(const struct ioam_element *e) {
    printf("   ");
    if (e->has_hop_node) printf(" hop=%u node=%u", e->hop_limit, e->node_id);
    if (e->has_interfaces) printf(" in=%u out=%u", e->ingress, e->egress);
    if (e->has_seconds) printf(" sec=%u", e->seconds);
    if (e->has_fraction) printf(" frac=%u", e->fraction);
    if (e->has_delay) printf(" delay=%u", e->delay);
    printf("\n");
}

/* Prints the header of a pre-allocated trace and its elements, the oldest first. */
static void print_trace(const uint8_t *data, size_t n) {
    struct ioam_trace_head head;
    uint32_t status = ioam_trace_head(data, n, &head);
    if (status != IOAM_OK) {
        printf("  trace bad %s\n", names[status]);
        return;
    }
    printf("  trace %u %06x%s\n", head.namespace_id, head.type, head.flags & IOAM_OVERFLOW ? " overflow" : "");
    struct ioam_element element;
    for (size_t cursor = n; ioam_trace_element(data, n, &cursor, &element) == IOAM_OK;) print_element(&element);
}

/* Prints the traces of a packet, or why they can't be read. */
static void print_packet(const char *name, const uint8_t *packet, size_t n) {
    struct ioam_option option;
    size_t cursor = 0;
    uint32_t status;
    printf("%s\n", name);
    while ((status = ioam_next_option(packet, n, &cursor, &option)) == IOAM_OK) {
        if (option.has_option_type && option.option_type == IOAM_PREALLOCATED_TRACE)
            print_trace(packet + option.data, option.length);
    }
    if (status != IOAM_END) printf("  skip %s\n", names[status]);
}

int main(int count, char **files) {
    static uint8_t packet[65575];
    for (int i = 1; i < count; i++) {
        FILE *file = fopen(files[i], "rb");
        if (!file) {
            perror(files[i]);
            return EXIT_FAILURE;
        }
        size_t n = fread(packet, 1, sizeof packet, file);
        fclose(file);
        print_packet(files[i], packet, n);
    }
    return EXIT_SUCCESS;
}
