/*
 * Bogtrumpet: one ISATAP tunnel end (RFC 5214), or two in one box, proved. R5.7 and the like are rules of docs/RULES.md.
 *
 *     cc -I include program.c target/staticlib/libbogtrumpet.a -o program
 *
 * The archive has two objects, the node's calls and the rules without state; a program that calls only a rule links none of the node.
 * It needs nothing but memcpy, memmove and memset. x86-64 and ELF alone; C99 or later, or C++.
 *
 * Values. No function allocates, keeps a pointer, blocks, or fails in another way than by its number. None has a precondition on values:
 * any struct, number and bytes may be handed over, a node of arbitrary bytes too.
 * IPv4 addresses are numbers, 10.0.0.1 is 0x0A000001; IPv6 addresses and packets are bytes in the order of the network.
 *
 * Memory. Lent bytes are (pointer, length). A pointer is valid for its length, or null where the length is 0. One to a node is valid,
 * aligned to 8 bytes and not null; bytes need no alignment. What a call may write, an output, the memory of
 * bogtrumpet_receive or a node that is not const, overlaps nothing else that it is lent.
 *
 * Services. A node has one service, the first (0), or two, the first and the second (1) (R26). Each has settings, a router list, an
 * identification, a collection of pieces and a memory for them of its own; the kept path sizes and the latest time are the node's, and both
 * services share them. In force for a service is the smaller of its link size and the kept size, whichever service's report that was. Every
 * call on a node but bogtrumpet_report names its service, and what it says of locators, routers and prefixes is meant of that one. A report
 * belongs to the service that has the quoted source for a locator address; where both have it, as no accepted settings do, to the first.
 * A service that the node has not, or a number above 1, gives 11 in every call, before the numbers that stand there; its time counts.
 *
 * Threads. There is no shared state: calls on different nodes, and the rules, may be made at once. On one node bogtrumpet_advertise and
 * bogtrumpet_path_size, which only read it, may be made at once; any other call on it is made alone, bogtrumpet_receive too.
 *
 * Stack. A call needs at most BOGTRUMPET_STACK bytes, whatever it is given (tests/boundary measures it).
 *
 * Answers. A call that can be refused gives a number of enum bogtrumpet_number, 0 where it is not. Where several apply, the first in the
 * order that stands at the call is given. Fields of an answer that do not apply are 0. After a refusal the lent output is untouched and
 * the node as before but for the latest time; 14 alone may write, bogtrumpet_new and bogtrumpet_new_pair always fill their node, and a piece
 * may change what is collected (at bogtrumpet_receive). Bytes of an output behind the written length stay as they were.
 *
 * Time is a count of seconds that the caller hands over; one earlier than the latest is read as the latest.
 */
#ifndef BOGTRUMPET_H
#define BOGTRUMPET_H

#if !defined(__x86_64__) || !defined(__LP64__) || !defined(__ELF__)
#error "libbogtrumpet.a is machine code for x86-64 with 64-bit longs and pointers in ELF objects (System V calls)"
#endif

#include <stdbool.h>
#include <stddef.h>
#include <stdint.h>

#define BOGTRUMPET_VERSION "0.8.0"
#define BOGTRUMPET_VERSION_MAJOR 0
#define BOGTRUMPET_VERSION_MINOR 8
#define BOGTRUMPET_VERSION_PATCH 0

/* A compiler that can warns where an answer is not looked at. */
#if defined(__GNUC__)
#define BOGTRUMPET_CHECKED __attribute__((warn_unused_result))
#else
#define BOGTRUMPET_CHECKED
#endif

#ifdef __cplusplus
extern "C" {
#endif

/* ---- Limits and lengths ------------------------------------------------------------------------------------------- */

#define BOGTRUMPET_MAX_LOCATORS 8
#define BOGTRUMPET_MAX_PREFIXES 8
#define BOGTRUMPET_MAX_ROUTERS 16
#define BOGTRUMPET_MAX_NEIGHBOURS 64 /* whose path sizes are kept */
#define BOGTRUMPET_MAX_ADVERTISED 8  /* prefixes of an advertisement that is written, and routes of it */
#define BOGTRUMPET_MAX_COLLECTED 8   /* datagrams whose pieces a service collects at once */

#define BOGTRUMPET_MIN_LINK_SIZE 576
#define BOGTRUMPET_MAX_LINK_SIZE 9216
#define BOGTRUMPET_MAX_INTERVAL 3600 /* seconds between solicitations of a router */
#define BOGTRUMPET_REPORT_AGE 600    /* seconds from which on a size report is no longer in force */
#define BOGTRUMPET_PIECE_AGE 30      /* seconds from a datagram's first piece on, from which on its pieces are dropped */

#define BOGTRUMPET_PREFIX_LENGTH 8
#define BOGTRUMPET_OUTER_HEADER_LENGTH 20 /* of the IPv4 header that is written */
#define BOGTRUMPET_INNER_HEADER_LENGTH 40
#define BOGTRUMPET_SOLICITATION_LENGTH 48
#define BOGTRUMPET_MAX_ADVERTISEMENT_LENGTH 504 /* of an advertisement that is written */
#define BOGTRUMPET_MAX_TOO_BIG_LENGTH 1280
#define BOGTRUMPET_MAX_SENT_LENGTH 9216 /* the most that bogtrumpet_send writes on a node of accepted settings */

#define BOGTRUMPET_RUN_LENGTH 6 /* of a run in the report of bogtrumpet_compare */

#define BOGTRUMPET_MEMORY 16384 /* the memory that bogtrumpet_receive is lent, in bytes */

#define BOGTRUMPET_STACK 8192 /* bytes of stack that suffice for any call */

/* ---- Numbers ------------------------------------------------------------------------------------------------------ */

enum bogtrumpet_number {
    BOGTRUMPET_OK = 0,                      /* not refused */
    BOGTRUMPET_SETTINGS = 1,                /* settings or a new router list break the rules, or two services share a locator address */
    BOGTRUMPET_OUTER_MALFORMED = 2,         /* outer header malformed */
    BOGTRUMPET_OUTER_CHECKSUM = 3,          /* outer checksum wrong */
    BOGTRUMPET_OTHER_PROTOCOL = 4,          /* protocol is not 41 */
    BOGTRUMPET_PIECE = 5,                   /* more-fragments set or offset not 0 */
    BOGTRUMPET_NOT_FOR_US = 6,              /* destination and arrival interface match no locator */
    BOGTRUMPET_OUTER_SOURCE_FORBIDDEN = 7,  /* outer source forbidden */
    BOGTRUMPET_INNER_MALFORMED = 8,         /* inner packet malformed */
    BOGTRUMPET_INNER_SOURCE_BAD = 9,        /* inner source bad */
    BOGTRUMPET_OUTER_SOURCE_WRONG = 10,     /* outer source wrong for inner source */
    BOGTRUMPET_NO_LOCATOR = 11,             /* no locator of that number, or no such service */
    BOGTRUMPET_NEXT_HOP_NOT_ISATAP = 12,    /* next hop is no ISATAP address */
    BOGTRUMPET_TUNNEL_END_FORBIDDEN = 13,   /* tunnel end forbidden, or a locator's address */
    BOGTRUMPET_TOO_BIG = 14,                /* packet above the size that passes; carries that size and a message's length */
    BOGTRUMPET_OUTPUT_SHORT = 15,           /* lent output too short for what would be written, or lent memory too short */
    BOGTRUMPET_REPORT_MALFORMED = 16,       /* no well-formed size report */
    BOGTRUMPET_QUOTE_NOT_OURS = 17,         /* the quote is not of our sending */
    BOGTRUMPET_SIZE_UNUSABLE = 18,          /* reported size unusable */
    BOGTRUMPET_SIZE_NOT_BELOW = 19,         /* reported size not below the one in force */
    BOGTRUMPET_ADVERTISEMENT_INVALID = 20,  /* no valid advertisement */
    BOGTRUMPET_ADVERTISER_NOT_LISTED = 21,  /* advertiser is no router of the list */
    BOGTRUMPET_NO_ROUTER_DUE = 22,          /* no router is due */
    BOGTRUMPET_WRAPPED_TOO_LONG = 23,       /* wrapped length above 65,535 */
    BOGTRUMPET_SOLICITATION_INVALID = 24,   /* no valid solicitation */
    BOGTRUMPET_ASKER_NOT_ISATAP = 25,       /* the asker's address is not link-local ISATAP */
    BOGTRUMPET_OPTIONS_BAD = 26,            /* too many prefixes or routes, or a prefix length above 128 */
    BOGTRUMPET_PIECE_WAITS = 27,            /* a piece that waits for others, or is ignored */
    BOGTRUMPET_NO_PLACE = 28,               /* no place is free for a new datagram's piece */
    BOGTRUMPET_PIECES_DISAGREE = 29,        /* pieces overlap, or disagree about the end */
    BOGTRUMPET_PIECE_UNFIT = 30,            /* a piece's payload is empty, ends past 2,048 bytes, or before the last piece is no multiple of 8 */
    BOGTRUMPET_RECORDING_MALFORMED = 31     /* a recording malformed */
};

/* The number in words; "no number of bogtrumpet" for one above 31. */
BOGTRUMPET_CHECKED static inline const char *bogtrumpet_number_text(uint8_t number) {
    switch (number) {
    case BOGTRUMPET_OK: return "not refused";
    case BOGTRUMPET_SETTINGS: return "settings or a new router list break the rules, or two services share a locator address";
    case BOGTRUMPET_OUTER_MALFORMED: return "outer header malformed";
    case BOGTRUMPET_OUTER_CHECKSUM: return "outer checksum wrong";
    case BOGTRUMPET_OTHER_PROTOCOL: return "protocol is not 41";
    case BOGTRUMPET_PIECE: return "a piece of a datagram";
    case BOGTRUMPET_NOT_FOR_US: return "destination and arrival interface match no locator";
    case BOGTRUMPET_OUTER_SOURCE_FORBIDDEN: return "outer source forbidden";
    case BOGTRUMPET_INNER_MALFORMED: return "inner packet malformed";
    case BOGTRUMPET_INNER_SOURCE_BAD: return "inner source bad";
    case BOGTRUMPET_OUTER_SOURCE_WRONG: return "outer source wrong for the inner source";
    case BOGTRUMPET_NO_LOCATOR: return "no locator of that number, or no such service";
    case BOGTRUMPET_NEXT_HOP_NOT_ISATAP: return "next hop is no ISATAP address";
    case BOGTRUMPET_TUNNEL_END_FORBIDDEN: return "tunnel end forbidden, or a locator's address";
    case BOGTRUMPET_TOO_BIG: return "packet too big";
    case BOGTRUMPET_OUTPUT_SHORT: return "output or memory too short";
    case BOGTRUMPET_REPORT_MALFORMED: return "no well-formed size report";
    case BOGTRUMPET_QUOTE_NOT_OURS: return "the quote is not of our sending";
    case BOGTRUMPET_SIZE_UNUSABLE: return "reported size unusable";
    case BOGTRUMPET_SIZE_NOT_BELOW: return "reported size not below the one in force";
    case BOGTRUMPET_ADVERTISEMENT_INVALID: return "no valid advertisement";
    case BOGTRUMPET_ADVERTISER_NOT_LISTED: return "advertiser not listed";
    case BOGTRUMPET_NO_ROUTER_DUE: return "no router due";
    case BOGTRUMPET_WRAPPED_TOO_LONG: return "wrapped length above 65,535";
    case BOGTRUMPET_SOLICITATION_INVALID: return "no valid solicitation";
    case BOGTRUMPET_ASKER_NOT_ISATAP: return "the asker's address is not link-local ISATAP";
    case BOGTRUMPET_OPTIONS_BAD: return "too many prefixes or routes, or a prefix length above 128";
    case BOGTRUMPET_PIECE_WAITS: return "a piece that waits for others, or is ignored";
    case BOGTRUMPET_NO_PLACE: return "no place is free for a new datagram's piece";
    case BOGTRUMPET_PIECES_DISAGREE: return "pieces overlap, or disagree about the end";
    case BOGTRUMPET_PIECE_UNFIT: return "a piece's payload is empty, ends past 2,048 bytes, or before the last piece is no multiple of 8";
    case BOGTRUMPET_RECORDING_MALFORMED: return "a recording malformed";
    default: return "no number of bogtrumpet";
    }
}

/* ---- Settings and state ------------------------------------------------------------------------------------------- */

/* An IPv6 address. */
struct bogtrumpet_address {
    uint8_t bytes[16];
};

/* One of our IPv4 addresses, and the interface that its datagrams arrive on. */
struct bogtrumpet_locator {
    uint32_t address;
    uint8_t interface;
};

/* What an operator sets of a service (R2). Entries behind a count are not read. */
struct bogtrumpet_settings {
    struct bogtrumpet_locator locators[BOGTRUMPET_MAX_LOCATORS]; /* 1 to 8, no pair twice, none forbidden */
    size_t locator_count;
    uint8_t prefixes[BOGTRUMPET_MAX_PREFIXES * BOGTRUMPET_PREFIX_LENGTH]; /* on-link ones of 8 bytes, beside fe80::/64 */
    size_t prefix_count;
    uint32_t routers[BOGTRUMPET_MAX_ROUTERS]; /* 0 to 16, distinct, none forbidden or a locator's address */
    size_t router_count;
    uint16_t link_size;      /* 576 to 9,216 */
    uint8_t ttl;             /* of outer headers, 1 to 255 */
    uint16_t interval;       /* between solicitations of a router, 1 to 3,600 s */
    uint16_t identification; /* of the first wrapped packet */
    uint8_t reporting[16];   /* the address that Too Big messages come from, neither multicast nor :: */
};

/* Row by row the address of a router, and the time at which it is asked next, which may lie past the last 32-bit second. */
struct bogtrumpet_router_list {
    uint32_t addresses[BOGTRUMPET_MAX_ROUTERS];
    uint64_t dues[BOGTRUMPET_MAX_ROUTERS];
    size_t count;
};

/* What the pieces of one datagram have in common (R23.5). */
struct bogtrumpet_key {
    uint32_t source;
    uint32_t destination;
    uint16_t identification;
    uint8_t protocol;
};

/* A datagram that is collected. Its payload stands in the lent memory, from 2,048 times the place's number on. */
struct bogtrumpet_place {
    uint64_t held[4]; /* which units of 8 bytes are held: unit u is bit u % 64 of word u / 64 */
    struct bogtrumpet_key key;
    uint32_t first; /* the latest time at its first piece */
    uint16_t end;   /* of its payload, 0 while that is not known */
    uint16_t reach; /* how far its pieces with more-fragments set reach */
    uint8_t used;   /* 0 where there is none */
};

struct bogtrumpet_collection {
    struct bogtrumpet_place places[BOGTRUMPET_MAX_COLLECTED];
};

/* What a service has of its own. */
struct bogtrumpet_service {
    struct bogtrumpet_settings settings;   /* as they were set: its routers are the first list, also after it was replaced */
    struct bogtrumpet_router_list routers; /* the list now in force */
    struct bogtrumpet_collection pieces;   /* the datagrams that are collected */
    uint16_t identification;               /* of the next wrapped packet */
};

/* The accepted size reports, newest first: row by row whose report, its size and its time. */
struct bogtrumpet_paths {
    uint32_t neighbours[BOGTRUMPET_MAX_NEIGHBOURS];
    uint16_t sizes[BOGTRUMPET_MAX_NEIGHBOURS];
    uint32_t times[BOGTRUMPET_MAX_NEIGHBOURS];
    size_t count;
};

/* A node's state: a plain value, which may be copied and kept. A call changes it in place. Nodes are not to be compared bytewise: what
   stands between fields, and behind a count, is not determined. It has 2,448 bytes, after 2,576 in 0.6.0: the router lists. */
struct bogtrumpet_node {
    struct bogtrumpet_service first;
    struct bogtrumpet_service second; /* of empty settings, all values 0, where the node has one service */
    struct bogtrumpet_paths paths;
    uint32_t latest; /* the latest time seen, in seconds */
    uint8_t both;    /* any value but 0: the node has the second service too */
};

/* The service that a call names. Any other number gives 11. */
enum bogtrumpet_service_number {
    BOGTRUMPET_FIRST = 0,
    BOGTRUMPET_SECOND = 1
};

/* A new router list. */
struct bogtrumpet_addresses {
    uint32_t routers[BOGTRUMPET_MAX_ROUTERS];
    size_t count;
};

/* ---- What is advertised ------------------------------------------------------------------------------------------- */

/* A prefix that an advertisement names (RFC 4861, 4.6.2). Any value but 0 sets a flag; lifetimes are seconds, 0xFFFFFFFF is for ever. */
struct bogtrumpet_advertised_prefix {
    uint8_t bytes[16]; /* bits past the length are written as 0 */
    uint32_t valid;
    uint32_t preferred;
    uint8_t length;     /* in bits, 0 to 128 */
    uint8_t on_link;    /* the flag L */
    uint8_t autonomous; /* the flag A */
};

/* How the router is preferred for a route. Any other value is read as medium. */
enum bogtrumpet_preference {
    BOGTRUMPET_PREFERENCE_MEDIUM = 0,
    BOGTRUMPET_PREFERENCE_HIGH = 1,
    BOGTRUMPET_PREFERENCE_LOW = 2
};

/* A route that an advertisement names (RFC 4191, 2.3). Its lifetime is seconds, 0xFFFFFFFF is for ever. */
struct bogtrumpet_advertised_route {
    uint8_t bytes[16]; /* bits past the length are written as 0 */
    uint32_t lifetime;
    uint8_t length;     /* in bits, 0 to 128 */
    uint8_t preference; /* of enum bogtrumpet_preference */
};

/* What an operator sets of an advertisement (R22). Entries behind a count are not read; all zero is one without prefix and route. */
struct bogtrumpet_advertisement {
    struct bogtrumpet_advertised_prefix prefixes[BOGTRUMPET_MAX_ADVERTISED];
    size_t prefix_count;
    struct bogtrumpet_advertised_route routes[BOGTRUMPET_MAX_ADVERTISED];
    size_t route_count;
    uint16_t lifetime; /* of the router as a default router, in seconds */
    uint8_t managed;   /* the flag M; any value but 0 sets it */
    uint8_t other;     /* the flag O; any value but 0 sets it */
};

/* ---- Answers ------------------------------------------------------------------------------------------------------ */

struct bogtrumpet_received {
    uint8_t number;
    bool joined;   /* the inner packet was joined of pieces, and stands in the memory; else it stands in the datagram */
    size_t offset; /* where it starts there */
    size_t length; /* its length */
};

struct bogtrumpet_sent {
    uint8_t number;
    uint16_t size;         /* with 14: the largest packet that passes */
    size_t length;         /* with 0: the length of the datagram written */
    size_t message_length; /* with 14: the length of the Too Big message written, an IPv6 packet for its sender, or 0 for none */
};

struct bogtrumpet_reported {
    uint8_t number;
    uint32_t neighbour;
    uint16_t size; /* the size now in force toward it, for the service that the report belongs to */
};

struct bogtrumpet_asked {
    uint8_t number;
    uint32_t router; /* the router asked */
};

struct bogtrumpet_heard {
    uint8_t number;
    uint32_t router; /* the router that advertised */
};

struct bogtrumpet_advertised {
    uint8_t number;
    size_t length; /* with 0: the length of the advertisement written */
};

struct bogtrumpet_sized {
    uint8_t number; /* 0 or 11 */
    uint16_t size;  /* with 0: the size in force */
};

/* ---- The node's calls --------------------------------------------------------------------------------------------- */

/* The same locators, prefixes, routers and counts; link size 1,500, TTL 64, interval 120, identification 1, reporting address
   the link-local address of locator 0 (R2.10). Never refused: bogtrumpet_new judges them. */
BOGTRUMPET_CHECKED struct bogtrumpet_settings bogtrumpet_defaults(struct bogtrumpet_settings settings);

/* Fills the node, whatever stood there: a node of one service, with all routers due at time 0 (R2.12). The number: 0, or 1, and then the
   node is the one of empty settings, all values 0; it delivers nothing (6 at the latest) and sends, asks and advertises nothing (11 at the
   latest) (R2.11). */
BOGTRUMPET_CHECKED uint8_t bogtrumpet_new(struct bogtrumpet_node *node, struct bogtrumpet_settings settings);

/* The same of a node of two services. 1 is given also where a locator of the one has the address of a locator of the other, on whatever
   interfaces (R26.2); a locator address of the one may be a router, a neighbour or a tunnel end of the other. */
BOGTRUMPET_CHECKED uint8_t bogtrumpet_new_pair(struct bogtrumpet_node *node, struct bogtrumpet_settings first,
                                               struct bogtrumpet_settings second);

/* Where the inner packet stands of a datagram that arrived on the interface: in it, or, where it is the last missing piece of one, in the
   memory (R5, R23). The memory has at least BOGTRUMPET_MEMORY bytes, of any value at first, and is the same at each call of a service
   and no other service's or node's, untouched between calls: what is collected stands there, and a repeated piece is compared with it. The
   bytes of a joined packet stand there until the service's next call. A whole datagram leaves the memory and what is collected as they are.
   Numbers, in this order: 15 (the memory is too short), 2, 3, 4, 6, 7; then of a piece 30, 29, 28, 27; then of a whole datagram, and of
   one that a piece completes, 8, 9, 10. What is collected is changed also by 27, by 29, which drops it, and by 8, 9 and 10 of what a
   piece completes; the memory by 27, 8, 9 and 10. */
BOGTRUMPET_CHECKED struct bogtrumpet_received bogtrumpet_receive(struct bogtrumpet_node *node, uint8_t service,
                                                                 const uint8_t *datagram, size_t length,
                                                                 uint8_t interface, uint32_t time, uint8_t *memory,
                                                                 size_t room);

/* Wraps an IPv6 packet for the next hop, from the numbered locator (from 0) (R7). A packet above the size that passes gets 14, and an
   ICMPv6 Packet Too Big of 1,280 bytes in the output (R8). None is written, whatever the room, where the packet's source is multicast or
   ::; where it is an ICMPv6 error or redirect, or ICMPv6 with no byte left, also behind extension headers (hop-by-hop options, routing,
   fragment, destination options); where these headers run past the packet; or where one is of a fragment whose offset is not 0 (R8.2,
   R25).
   Numbers, in this order: 8 (also where the length is not 40 + payload length), 11, 12, 13, 14, 23, 15; 15 in the place of 14
   where the message does not fit. 23 does not come on a node made from accepted settings. */
BOGTRUMPET_CHECKED struct bogtrumpet_sent bogtrumpet_send(struct bogtrumpet_node *node, uint8_t service,
                                                          const uint8_t *packet, size_t length,
                                                          struct bogtrumpet_address next_hop, size_t locator,
                                                          uint32_t time, uint8_t *out, size_t room);

/* Takes an ICMPv4 message in: a size report (type 3, code 4), quoting a datagram of ours (R9). It belongs to the service whose locator it
   quotes, and must be below that service's size in force (R26.5).
   Numbers, in this order: 16, 17, 18, 19. */
BOGTRUMPET_CHECKED struct bogtrumpet_reported bogtrumpet_report(struct bogtrumpet_node *node, const uint8_t *message,
                                                                size_t length, uint32_t time);

/* Replaces the router list: a router in both lists keeps its due time, a new one is due now (R2.13). The number: 0, or 1. */
BOGTRUMPET_CHECKED uint8_t bogtrumpet_replace_routers(struct bogtrumpet_node *node, uint8_t service,
                                                      struct bogtrumpet_addresses list, uint32_t time);

/* Writes a router solicitation of 48 bytes, not yet wrapped, to the router that is due first, from the numbered locator (R13).
   Numbers, in this order: 11, 22, 15. */
BOGTRUMPET_CHECKED struct bogtrumpet_asked bogtrumpet_ask(struct bogtrumpet_node *node, uint8_t service, size_t locator,
                                                         uint32_t time, uint8_t *out, size_t room);

/* Takes a router advertisement in, a received inner packet; the router is asked again by its lifetimes (R15, R16).
   Numbers, in this order: 8 (as in receiving), 20, 21. */
BOGTRUMPET_CHECKED struct bogtrumpet_heard bogtrumpet_hear(struct bogtrumpet_node *node, uint8_t service,
                                                           const uint8_t *packet, size_t length, uint32_t time);

/* Answers a router solicitation, a received inner packet, with a router advertisement of at most 504 bytes, not yet wrapped, from the
   numbered locator to the asker (R22). The node stays as it is. To send it: bogtrumpet_send with this length, the same locator, and for the
   next hop its destination, bytes 24 to 39; 13 is given there where the asker's address embeds a forbidden one or one of ours.
   Numbers, in this order: 8 (as in receiving), 11, 24, 25, 26, 15. */
BOGTRUMPET_CHECKED struct bogtrumpet_advertised bogtrumpet_advertise(const struct bogtrumpet_node *node,
                                                                     uint8_t service, const uint8_t *packet,
                                                                     size_t length, size_t locator,
                                                                     struct bogtrumpet_advertisement advertisement,
                                                                     uint8_t *out, size_t room);

/* The path size in force for the service toward the neighbour, at the latest time (R10, R26.6). */
BOGTRUMPET_CHECKED struct bogtrumpet_sized bogtrumpet_path_size(const struct bogtrumpet_node *node, uint8_t service,
                                                                uint32_t neighbour);

/* ---- Rules without state ------------------------------------------------------------------------------------------ */

/* On-link prefixes of 8 bytes, beside fe80::/64; a count above 8 is read as 8. */
struct bogtrumpet_prefixes {
    uint8_t bytes[BOGTRUMPET_MAX_PREFIXES * BOGTRUMPET_PREFIX_LENGTH];
    size_t count;
};

struct bogtrumpet_embedded {
    bool found;
    uint32_t address; /* 0 where not found */
};

/* An outer header as read. */
struct bogtrumpet_outer_read {
    uint8_t number;
    uint8_t protocol;
    uint16_t header; /* its length, options included */
    uint16_t total;  /* the datagram's length; bytes behind it are padding */
    uint32_t source;
    uint32_t destination;
};

/* The fields of an outer header that is written. */
struct bogtrumpet_outer {
    uint16_t identification;
    uint8_t dont_fragment; /* any value but 0 sets the flag */
    uint8_t ttl;
    uint8_t protocol;
    uint32_t source;
    uint32_t destination;
};

struct bogtrumpet_written {
    uint8_t number;
    size_t length; /* with 0: the length written */
};

/* Which of two recordings has more datagrams. */
enum bogtrumpet_more { BOGTRUMPET_MORE_NEITHER = 0, BOGTRUMPET_MORE_FIRST = 1, BOGTRUMPET_MORE_SECOND = 2 };

struct bogtrumpet_compared {
    uint8_t number;
    uint8_t more;  /* with 0: enum bogtrumpet_more */
    size_t length; /* with 0: the length of the report, 6 bytes for each run */
};

/* The RFC 1071 sum of the bytes, continued from the two words of start: the sum itself, not its complement (R1.5). */
BOGTRUMPET_CHECKED uint16_t bogtrumpet_checksum(uint32_t start, const uint8_t *bytes, size_t length);

/* Whether the sum that includes the checksum field is FFFF (R1.5). */
BOGTRUMPET_CHECKED bool bogtrumpet_checksum_right(const uint8_t *bytes, size_t length);

/* 0.0.0.0, 127.0.0.0/8, 224.0.0.0/4 and 255.255.255.255 (R3). */
BOGTRUMPET_CHECKED bool bogtrumpet_forbidden(uint32_t address);

/* The IPv4 address that an ISATAP address embeds: an on-link prefix, 00 or 02, 00, 5E, FE, the address (R6). */
BOGTRUMPET_CHECKED struct bogtrumpet_embedded bogtrumpet_isatap(struct bogtrumpet_prefixes prefixes,
                                                                struct bogtrumpet_address address);

/* fe80::5efe:A.B.C.D, first identifier byte 00 (R6.3). */
BOGTRUMPET_CHECKED struct bogtrumpet_address bogtrumpet_link_local(uint32_t address);

/* Whether an inner source is bad (number 9): ff00::/8, ::, ::1, or 96 zero bits and a forbidden IPv4 address (R5.11). */
BOGTRUMPET_CHECKED bool bogtrumpet_bad_source(struct bogtrumpet_address address);

/* Reads the outer header of a datagram, whatever its addresses are (R5.2 to R5.6). Numbers, in this order: 2, 3, 4, 5. */
BOGTRUMPET_CHECKED struct bogtrumpet_outer_read bogtrumpet_read_outer(const uint8_t *datagram, size_t length);

/* Where the inner packet stands, whatever the addresses are (R5.9, R5.10). Numbers, in this order: 2, 3, 4, 5, 8. */
BOGTRUMPET_CHECKED struct bogtrumpet_received bogtrumpet_unwrap(const uint8_t *datagram, size_t length);

/* Writes the packet, any bytes, behind its outer header (R7.10). Numbers, in this order: 23, 15. */
BOGTRUMPET_CHECKED struct bogtrumpet_written bogtrumpet_wrap(struct bogtrumpet_outer outer, const uint8_t *packet,
                                                             size_t length, uint8_t *out, size_t room);

/* Writes an ICMPv6 Packet Too Big about the packet, whatever it holds, to its source, whoever that is (R8.1): 48 bytes, then the packet's
   first 1,232, or all where it has fewer. Whether one may be sent, bogtrumpet_send alone judges (R8.2).
   Numbers, in this order: 8 (the packet is under 40 bytes), 15. */
BOGTRUMPET_CHECKED struct bogtrumpet_written bogtrumpet_too_big(struct bogtrumpet_address reporting, uint16_t size,
                                                                const uint8_t *packet, size_t length, uint8_t *out,
                                                                size_t room);

/* Writes a router solicitation of 48 bytes from the locator's link-local address to the router's (R14). Numbers: 15. */
BOGTRUMPET_CHECKED struct bogtrumpet_written bogtrumpet_solicitation(uint32_t locator, uint32_t router, uint8_t *out,
                                                                     size_t room);

/* Compares two recordings (R27), each a two-byte count and so many datagrams, each an interface, a two-byte length and the bytes. Writes for
   each longest run of differing bytes the datagram's number, from 1 on, the run's offset in it, from 0 on, and its length, two bytes each;
   bytes past the shorter datagram's end differ. Masked, identification, TTL and checksum count as equal where both have the byte.
   Interfaces, and datagrams without a partner, are not compared. All numbers of two bytes, in recordings and report, are big-endian.
   Numbers, in this order: 31 (either is no recording), 15. */
BOGTRUMPET_CHECKED struct bogtrumpet_compared bogtrumpet_compare(bool masked, const uint8_t *first, size_t first_length,
                                                                 const uint8_t *second, size_t second_length,
                                                                 uint8_t *out, size_t room);

#ifdef __cplusplus
}
#endif

/* ---- Sizes and offsets, as the archive has them -------------------------------------------------------------------- */

#if defined(__cplusplus) && __cplusplus >= 201103L
#define BOGTRUMPET_ASSERT(fact) static_assert(fact, #fact)
#elif defined(__STDC_VERSION__) && __STDC_VERSION__ >= 201112L
#define BOGTRUMPET_ASSERT(fact) _Static_assert(fact, #fact)
#endif

#ifdef BOGTRUMPET_ASSERT
#define BOGTRUMPET_SIZE(name, size) BOGTRUMPET_ASSERT(sizeof(struct bogtrumpet_##name) == (size))
#define BOGTRUMPET_AT(name, field, place) BOGTRUMPET_ASSERT(offsetof(struct bogtrumpet_##name, field) == (place))

BOGTRUMPET_SIZE(address, 16);
BOGTRUMPET_SIZE(locator, 8);
BOGTRUMPET_AT(locator, interface, 4);
BOGTRUMPET_SIZE(settings, 240);
BOGTRUMPET_AT(settings, locator_count, 64);
BOGTRUMPET_AT(settings, prefixes, 72);
BOGTRUMPET_AT(settings, prefix_count, 136);
BOGTRUMPET_AT(settings, routers, 144);
BOGTRUMPET_AT(settings, router_count, 208);
BOGTRUMPET_AT(settings, link_size, 216);
BOGTRUMPET_AT(settings, ttl, 218);
BOGTRUMPET_AT(settings, interval, 220);
BOGTRUMPET_AT(settings, identification, 222);
BOGTRUMPET_AT(settings, reporting, 224);
BOGTRUMPET_SIZE(router_list, 200);
BOGTRUMPET_AT(router_list, dues, 64);
BOGTRUMPET_AT(router_list, count, 192);
BOGTRUMPET_SIZE(key, 12);
BOGTRUMPET_AT(key, destination, 4);
BOGTRUMPET_AT(key, identification, 8);
BOGTRUMPET_AT(key, protocol, 10);
BOGTRUMPET_SIZE(place, 56);
BOGTRUMPET_AT(place, key, 32);
BOGTRUMPET_AT(place, first, 44);
BOGTRUMPET_AT(place, end, 48);
BOGTRUMPET_AT(place, reach, 50);
BOGTRUMPET_AT(place, used, 52);
BOGTRUMPET_SIZE(collection, 448);
BOGTRUMPET_SIZE(service, 896);
BOGTRUMPET_AT(service, routers, 240);
BOGTRUMPET_AT(service, pieces, 440);
BOGTRUMPET_AT(service, identification, 888);
BOGTRUMPET_SIZE(paths, 648);
BOGTRUMPET_AT(paths, sizes, 256);
BOGTRUMPET_AT(paths, times, 384);
BOGTRUMPET_AT(paths, count, 640);
BOGTRUMPET_SIZE(node, 2448);
BOGTRUMPET_AT(node, second, 896);
BOGTRUMPET_AT(node, paths, 1792);
BOGTRUMPET_AT(node, latest, 2440);
BOGTRUMPET_AT(node, both, 2444);
BOGTRUMPET_SIZE(addresses, 72);
BOGTRUMPET_AT(addresses, count, 64);
BOGTRUMPET_SIZE(advertised_prefix, 28);
BOGTRUMPET_AT(advertised_prefix, valid, 16);
BOGTRUMPET_AT(advertised_prefix, preferred, 20);
BOGTRUMPET_AT(advertised_prefix, length, 24);
BOGTRUMPET_AT(advertised_prefix, on_link, 25);
BOGTRUMPET_AT(advertised_prefix, autonomous, 26);
BOGTRUMPET_SIZE(advertised_route, 24);
BOGTRUMPET_AT(advertised_route, lifetime, 16);
BOGTRUMPET_AT(advertised_route, length, 20);
BOGTRUMPET_AT(advertised_route, preference, 21);
BOGTRUMPET_SIZE(advertisement, 440);
BOGTRUMPET_AT(advertisement, prefix_count, 224);
BOGTRUMPET_AT(advertisement, routes, 232);
BOGTRUMPET_AT(advertisement, route_count, 424);
BOGTRUMPET_AT(advertisement, lifetime, 432);
BOGTRUMPET_AT(advertisement, managed, 434);
BOGTRUMPET_AT(advertisement, other, 435);
BOGTRUMPET_SIZE(received, 24);
BOGTRUMPET_AT(received, joined, 1);
BOGTRUMPET_AT(received, offset, 8);
BOGTRUMPET_AT(received, length, 16);
BOGTRUMPET_SIZE(sent, 24);
BOGTRUMPET_AT(sent, size, 2);
BOGTRUMPET_AT(sent, length, 8);
BOGTRUMPET_AT(sent, message_length, 16);
BOGTRUMPET_SIZE(reported, 12);
BOGTRUMPET_AT(reported, neighbour, 4);
BOGTRUMPET_AT(reported, size, 8);
BOGTRUMPET_SIZE(sized, 4);
BOGTRUMPET_AT(sized, size, 2);
BOGTRUMPET_SIZE(asked, 8);
BOGTRUMPET_AT(asked, router, 4);
BOGTRUMPET_SIZE(heard, 8);
BOGTRUMPET_AT(heard, router, 4);
BOGTRUMPET_SIZE(advertised, 16);
BOGTRUMPET_AT(advertised, length, 8);
BOGTRUMPET_SIZE(prefixes, 72);
BOGTRUMPET_AT(prefixes, count, 64);
BOGTRUMPET_SIZE(embedded, 8);
BOGTRUMPET_AT(embedded, address, 4);
BOGTRUMPET_SIZE(outer_read, 16);
BOGTRUMPET_AT(outer_read, protocol, 1);
BOGTRUMPET_AT(outer_read, header, 2);
BOGTRUMPET_AT(outer_read, total, 4);
BOGTRUMPET_AT(outer_read, source, 8);
BOGTRUMPET_AT(outer_read, destination, 12);
BOGTRUMPET_SIZE(outer, 16);
BOGTRUMPET_AT(outer, dont_fragment, 2);
BOGTRUMPET_AT(outer, ttl, 3);
BOGTRUMPET_AT(outer, protocol, 4);
BOGTRUMPET_AT(outer, source, 8);
BOGTRUMPET_AT(outer, destination, 12);
BOGTRUMPET_SIZE(written, 16);
BOGTRUMPET_AT(written, length, 8);
BOGTRUMPET_SIZE(compared, 16);
BOGTRUMPET_AT(compared, more, 1);
BOGTRUMPET_AT(compared, length, 8);

#undef BOGTRUMPET_AT
#undef BOGTRUMPET_SIZE
#undef BOGTRUMPET_ASSERT
#endif

#endif
