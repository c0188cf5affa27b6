/*
 * ioam.h: In Situ OAM for IPv6 (RFC 8200, RFC 9197, RFC 9326, RFC 9486), for C.
 *
 * Every call is proved: it reads no octet outside those that it is given, ends, and answers what is stated here. The calls take no
 * memory, keep no state and call nothing back, so any thread may make any of them at any time.
 *
 * What the caller keeps to:
 *   - A pointer is never NULL, not even if the count that follows it is 0, and is aligned for its type.
 *   - The octets at a pointer are as many as the count that follows it says.
 *   - What a call writes (a pointer without const) overlaps nothing else that the call is given.
 *   - While a call runs nothing else writes what it is given, and nothing else reads what it writes.
 *
 * Numbers in a struct are in the machine's order; the calls convert from and to network order. An offset counts octets from the first
 * one that the call is given. A field with a flag `has_..` is there if the flag is 1; if the flag is 0 the field is 0. Trace types have
 * bit 0 of the RFC as 0x800000.
 *
 * Link with -lioam (pkg-config ioam). Only x86-64.
 */
#ifndef IOAM_H
#define IOAM_H

#include <stddef.h>
#include <stdint.h>

#ifdef __cplusplus
extern "C" {
#endif

/* What a call answers. The names after IOAM_ are those that the program `ioam` prints. */
enum ioam_status {
    IOAM_OK = 0,            /* what was asked for is there, or was done */
    IOAM_END = 1,           /* no further option or element */
    IOAM_NOT_IPV6 = 2,      /* of a packet: no octets, or the first four bits are not 6 */
    IOAM_LENGTH = 3,        /* of a packet: fewer octets than 40, or than 40 and its Payload Length */
    IOAM_CHAIN = 4,         /* of a packet: a header breaks the header chain (RFC 8200 section 4) */
    IOAM_SHORT = 5,         /* fewer octets than the data needs; of a trace also: not whole words of 4 octets */
    IOAM_SPACE = 6,         /* of a trace: RemainingLen exceeds the words after the header */
    IOAM_NODE_LEN = 7,      /* of a trace: NodeLen is not right for the type */
    IOAM_ELEMENT = 8,       /* of a trace: the used words are not whole elements */
    IOAM_RECORD = 9,        /* the octets are not one export record */
    IOAM_VIEW = 10,         /* a number of a view, or a node id, exceeds its limit */
    IOAM_OVERFLOWED = 11,   /* the element didn't fit, and Overflow is set now */
    IOAM_ALREADY_OVER = 12, /* Overflow was set, and nothing changed */
    IOAM_UNSUITED = 13,     /* no trace to which a node adds an element, and nothing changed */
    IOAM_ILLEGAL = 14       /* no node of which this is known may have made these octets of the others */
};

/* IOAM-Option-Types (RFC 9197 section 7.1, RFC 9326 section 3). */
enum ioam_option_type {
    IOAM_PREALLOCATED_TRACE = 0,
    IOAM_INCREMENTAL_TRACE = 1,
    IOAM_PROOF_OF_TRANSIT = 2,
    IOAM_EDGE_TO_EDGE = 3,
    IOAM_DIRECT_EXPORT = 4
};

/* The Overflow flag among the flags of a trace (RFC 9197 section 4.4.1). */
#define IOAM_OVERFLOW 8

/* ---- Packets. The octets begin with the IPv6 header; what follows the packet, by its Payload Length, is padding. ---- */

/*
 * Whether the header chain of a packet is whole (RFC 8200 section 4): every header is there, stands where it may, and its options fill
 * it, through nested IPv6 headers too.
 *
 * IOAM_OK: it is, and *at becomes the offset at which it ends. IOAM_CHAIN: the first header that breaks it is at the offset *at.
 * IOAM_NOT_IPV6, IOAM_LENGTH: the octets begin with no packet, and *at stays.
 */
uint32_t ioam_check(const uint8_t *packet, size_t n, size_t *at);

/* An IOAM option of a packet (RFC 9486 section 3). */
struct ioam_option {
    size_t header;           /* offset of the options header, Hop-by-Hop or Destination Options */
    size_t offset;           /* offset of the option's type octet */
    size_t data;             /* offset of the data after the IOAM-Option-Type */
    size_t length;           /* octets of that data */
    uint8_t type;            /* 0x11, or 0x31 if the data may change on the way */
    uint8_t has_option_type; /* 0 if the option's data is shorter than 2 octets */
    uint8_t option_type;     /* enum ioam_option_type, or a number that is not assigned */
    uint8_t has_namespace;   /* 0 if the option's data is shorter than 4 octets */
    uint16_t namespace_id;   /* Namespace-ID (RFC 9197 section 4.3) */
};

/*
 * Gives the first IOAM option at or after the offset *cursor, in the order of the header chain, nested packets included. Begin with 0.
 *
 * IOAM_OK: *option is that option, and *cursor becomes the offset after it. IOAM_END: there is none. IOAM_CHAIN, IOAM_NOT_IPV6,
 * IOAM_LENGTH: as ioam_check. Unless the answer is IOAM_OK, *cursor and *option stay.
 */
uint32_t ioam_next_option(const uint8_t *packet, size_t n, size_t *cursor, struct ioam_option *option);

/* ---- Traces (RFC 9197 section 4.4). The octets are those after the IOAM-Option-Type: `data` and `length` of an option. ---- */

/* The header of a trace (RFC 9197 section 4.4.1). */
struct ioam_trace_head {
    uint32_t type;         /* IOAM-Trace-Type, 24 bits */
    uint16_t namespace_id; /* Namespace-ID */
    uint8_t node_len;      /* NodeLen: words of 4 octets that a node adds, its snapshot not counted, 0 to 31 */
    uint8_t flags;         /* Flags, 0 to 15: IOAM_OVERFLOW and three more */
    uint8_t remaining;     /* RemainingLen: free words of 4 octets, 0 to 127 */
    uint8_t reserved;      /* the reserved octet */
};

/*
 * Reads the header of a pre-allocated trace, and sees that all of it is whole.
 *
 * IOAM_OK: *head is the header. IOAM_SHORT, IOAM_SPACE, IOAM_NODE_LEN, IOAM_ELEMENT: the first of these that applies; *head stays.
 */
uint32_t ioam_trace_head(const uint8_t *data, size_t n, struct ioam_trace_head *head);

/* The same for an incremental trace, which has no free words: IOAM_SPACE never comes. */
uint32_t ioam_incremental_head(const uint8_t *data, size_t n, struct ioam_trace_head *head);

/*
 * An element: what one node recorded (RFC 9197 section 4.4.2). A field is there if the trace type has its bit; one whose bits are all 1
 * was not known to the node.
 */
struct ioam_element {
    size_t offset;                /* offset of the element's first octet */
    size_t length;                /* octets of the element */
    size_t fill;                  /* offset of the words after the fields up to NodeLen, which undefined bits ask for */
    size_t fill_length;           /* octets of these words */
    size_t opaque;                /* offset of the snapshot's opaque data */
    size_t opaque_length;         /* octets of the opaque data */
    uint64_t wide_node_id;        /* bit 8, section 4.4.2.9: node id, 56 bits */
    uint64_t wide_data;           /* bit 10, section 4.4.2.11: namespace data, 64 bits */
    uint32_t node_id;             /* bit 0, section 4.4.2.1: node id, 24 bits */
    uint32_t seconds;             /* bit 2, section 4.4.2.3: seconds of the timestamp, in the format of the domain */
    uint32_t fraction;            /* bit 3, section 4.4.2.4: fraction of the timestamp, in the format of the domain */
    uint32_t delay;               /* bit 4, section 4.4.2.5: transit delay, nanoseconds; 0x80000000 is more than 31 bits */
    uint32_t short_data;          /* bit 5, section 4.4.2.6: namespace data, 32 bits */
    uint32_t queue;               /* bit 6, section 4.4.2.7: queue depth, memory buffers */
    uint32_t checksum;            /* bit 7, section 4.4.2.8: checksum complement */
    uint32_t wide_ingress;        /* bit 9, section 4.4.2.10: ingress interface, 32 bits */
    uint32_t wide_egress;         /* bit 9, section 4.4.2.10: egress interface, 32 bits */
    uint32_t buffer;              /* bit 11, section 4.4.2.12: buffer occupancy, in a unit of the node's own */
    uint32_t schema;              /* bit 22, section 4.4.2.13: schema of the opaque state snapshot, 24 bits */
    uint16_t ingress;             /* bit 1, section 4.4.2.2: ingress interface, 16 bits */
    uint16_t egress;              /* bit 1, section 4.4.2.2: egress interface, 16 bits */
    uint8_t hop_limit;            /* bit 0, section 4.4.2.1: hop limit */
    uint8_t wide_hop_limit;       /* bit 8, section 4.4.2.9: hop limit */
    uint8_t has_hop_node;         /* bit 0: hop_limit, node_id */
    uint8_t has_interfaces;       /* bit 1: ingress, egress */
    uint8_t has_seconds;          /* bit 2 */
    uint8_t has_fraction;         /* bit 3 */
    uint8_t has_delay;            /* bit 4 */
    uint8_t has_short_data;       /* bit 5 */
    uint8_t has_queue;            /* bit 6 */
    uint8_t has_checksum;         /* bit 7 */
    uint8_t has_wide_hop_node;    /* bit 8: wide_hop_limit, wide_node_id */
    uint8_t has_wide_interfaces;  /* bit 9: wide_ingress, wide_egress */
    uint8_t has_wide_data;        /* bit 10 */
    uint8_t has_buffer;           /* bit 11 */
    uint8_t has_snapshot;         /* bit 22: schema, opaque, opaque_length */
};

/*
 * Gives the elements of a pre-allocated trace, the oldest first. Begin with *cursor = n.
 *
 * IOAM_OK: *element is the oldest of the elements before the offset *cursor, and *cursor becomes its offset. IOAM_END: there is none.
 * IOAM_SHORT, IOAM_SPACE, IOAM_NODE_LEN, IOAM_ELEMENT: the octets before *cursor are no trace. Unless the answer is IOAM_OK, *cursor and
 * *element stay.
 */
uint32_t ioam_trace_element(const uint8_t *data, size_t n, size_t *cursor, struct ioam_element *element);

/* The same for an incremental trace. */
uint32_t ioam_incremental_element(const uint8_t *data, size_t n, size_t *cursor, struct ioam_element *element);

/*
 * What a node knows of a packet when it records its data (RFC 9197 section 4.4.2). What a flag `has_..` of 0 says isn't known, and is
 * written as all ones; any other flag says that it is known.
 */
struct ioam_view {
    uint64_t node_id;       /* below 2^56; from 2^24 on all ones in bit 0 */
    uint64_t delay;         /* transit delay, nanoseconds; above 2^31 - 1 it is written 0x80000000 */
    uint64_t wide_data;     /* namespace data, 64 bits */
    uint32_t ingress;       /* interface by which the packet came; from 65536 on all ones in bit 1 */
    uint32_t egress;        /* interface by which it leaves, likewise */
    uint32_t seconds;       /* seconds of the time at which the packet came, in the format of the domain */
    uint32_t fraction;      /* fraction of that time */
    uint32_t queue;         /* queue depth */
    uint32_t buffer;        /* buffer occupancy */
    uint32_t short_data;    /* namespace data, 32 bits */
    uint32_t schema;        /* schema of the snapshot, below 2^24 */
    uint8_t hop_limit;      /* hop limit with which the packet is sent on */
    uint8_t has_ingress;
    uint8_t has_egress;
    uint8_t has_timestamp;  /* seconds and fraction */
    uint8_t has_delay;
    uint8_t has_queue;
    uint8_t has_buffer;
    uint8_t has_short_data;
    uint8_t has_wide_data;
    uint8_t has_snapshot;   /* schema, opaque_words and opaque */
    uint8_t opaque_words;   /* words of 4 octets of the snapshot's opaque data, at most 45 */
    uint8_t opaque[180];    /* the opaque data, of which the first words count */
};

/*
 * Adds in place the data of a node to a pre-allocated trace (RFC 9197 section 4.4.1).
 *
 * IOAM_OK: RemainingLen is less by the element's words, and the element is in the last of the free words. IOAM_OVERFLOWED: the element
 * didn't fit, and only Overflow was set. IOAM_ALREADY_OVER, IOAM_UNSUITED, IOAM_VIEW (node_id, schema or opaque_words exceeds its limit):
 * nothing changed.
 */
uint32_t ioam_fill(uint8_t *data, size_t n, const struct ioam_view *view);

/*
 * The judge: whether a node may have made the octets of a pre-allocated trace of those with which it came (RFC 9197 section 4.4), if all
 * that is known of the node is its id, the hop limit with which it sent the packet on, and the interface by which the packet came.
 * Whatever else it knows, a node that may add adds its element, or sets Overflow if the element doesn't fit, or, if the type has
 * undefined bits, leaves the octets alone; other octets stay as they are.
 *
 * IOAM_OK: it may. IOAM_ILLEGAL: it may not; so it is if n differs from old_n. IOAM_VIEW: node_id is 2^56 or more.
 */
uint32_t ioam_may_become(const uint8_t *old, size_t old_n, const uint8_t *data, size_t n, uint8_t hop_limit, uint64_t node_id,
                         uint32_t ingress);

/* ---- Edge-to-edge data (RFC 9197 section 4.6). The octets are those after the IOAM-Option-Type. ---- */

struct ioam_edge {
    uint64_t seq64;        /* 64-bit sequence number, type bit 0x8000 */
    uint32_t seq32;        /* 32-bit sequence number, type bit 0x4000 */
    uint32_t seconds;      /* seconds of the timestamp, type bit 0x2000 */
    uint32_t fraction;     /* fraction of the timestamp, type bit 0x1000 */
    uint16_t namespace_id; /* Namespace-ID */
    uint16_t type;         /* IOAM-E2E-Type */
    uint8_t has_seq64;
    uint8_t has_seq32;
    uint8_t has_seconds;
    uint8_t has_fraction;
};

/* IOAM_OK: *edge is what the octets begin with. IOAM_SHORT: they are fewer than the type asks for, and *edge stays. */
uint32_t ioam_edge_read(const uint8_t *data, size_t n, struct ioam_edge *edge);

/* ---- Direct export data (RFC 9326 section 3.2). The octets are those after the IOAM-Option-Type. ---- */

struct ioam_direct {
    uint32_t type;         /* IOAM-Trace-Type, 24 bits: what a node is to export */
    uint32_t flow;         /* Flow ID, extension flag 0x80 */
    uint32_t seq;          /* Sequence Number, extension flag 0x40 */
    uint16_t namespace_id; /* Namespace-ID */
    uint8_t flags;         /* Flags */
    uint8_t extensions;    /* Extension-Flags */
    uint8_t has_flow;
    uint8_t has_seq;
};

/* IOAM_OK: *direct is what the octets begin with. IOAM_SHORT: they are fewer than the flags ask for, and *direct stays. */
uint32_t ioam_direct_read(const uint8_t *data, size_t n, struct ioam_direct *direct);

/* ---- Export records, as the program's TAP files and the commands `collect` and `ipfix` have them. ---- */

struct ioam_record {
    size_t element;        /* offset of the element, which ends the record */
    size_t element_length; /* octets of the element, NodeLen being the words of the type's fields */
    uint64_t time;         /* time at the node, nanoseconds (version 2) */
    uint32_t ingress;      /* interface by which the packet came (version 2) */
    uint32_t type;         /* IOAM-Trace-Type of the element, 24 bits */
    uint32_t flow;         /* Flow ID (RFC 9326 section 3.2) */
    uint32_t seq;          /* Sequence Number (RFC 9326 section 3.2) */
    uint16_t namespace_id; /* Namespace-ID of the option */
    uint8_t flags;         /* Flags of the option */
    uint8_t extensions;    /* Extension-Flags of the option */
    uint8_t has_visit;     /* version 2: time, ingress */
    uint8_t has_flow;
    uint8_t has_seq;
};

/*
 * IOAM_OK: the octets are one record, and *record is what it says. IOAM_RECORD: they are none, and *record stays. Octets 2 and 3 of a
 * record are its length, so records that follow one another are split by it.
 */
uint32_t ioam_record_read(const uint8_t *data, size_t n, struct ioam_record *record);

#ifdef __cplusplus
}
#endif

#endif
