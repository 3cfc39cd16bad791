/*
 * bogtrumpetd: a host that carries traffic through the library, a TUN device for each service on the one side and IPv4 on the other.
 * NOT PROVED. It moves bytes between the kernel and the library, and decides nothing that the library decides.
 */
#ifndef BOGTRUMPETD_H
#define BOGTRUMPETD_H

#include "bogtrumpet.h"

#include <limits.h>
#include <net/if.h>
#include <stdio.h>

#define SERVICES 2
#define INTERFACES (SERVICES * BOGTRUMPET_MAX_LOCATORS)
#define NO_INTERFACE 255 /* the library's number for an interface that no locator names: none of theirs is above INTERFACES */
#define NEIGHBOURS 4096  /* places for neighbours that use us as a router */
#define LONGEST 65536    /* bytes of the longest IPv4 datagram, and one more */

/* ---- config.c: what the operator says ----------------------------------------------------------------------------- */

/* Where something stands: a line of a file, or an option, which has no file. */
struct place {
    const char *file;
    unsigned line;
};

struct service_config {
    char tun[IFNAMSIZ];
    struct place place; /* of its key `tun` */
    struct bogtrumpet_settings settings;
    bool identification;     /* is given */
    uint32_t default_router; /* 0 where none is named */
    bool advertises;
    struct bogtrumpet_advertisement advertisement;
};

struct config {
    struct service_config services[SERVICES];
    size_t service_count;
    char interfaces[INTERFACES][IFNAMSIZ]; /* the place of a name is the library's number of the interface */
    size_t interface_count;
    char user[64];
    char counters[PATH_MAX];
    char counters_json[PATH_MAX];
    bool check; /* only */
    uint64_t rest; /* differs where more than the router lists differs */
};

/* Reads the options, and the files that they name. False where something is wrong, which is then said on standard error. */
bool config_read(struct config *config, char **options);

/* ---- counters.c: what is counted ---------------------------------------------------------------------------------- */

#define CALLS(call) \
    call(RECEIVE, "receive") call(SEND, "send") call(REPORT, "report") call(ROUTERS, "routers") call(ASK, "ask") \
    call(HEAR, "hear") call(ADVERTISE, "advertise")

#define EVENTS(event) \
    event(DELIVERED, "delivered")         /* packets that the device took */ \
    event(UNDELIVERED, "undelivered")     /* and that it did not take */ \
    event(JOINED, "joined")               /* delivered ones that came in pieces */ \
    event(KERNEL_JOINED, "kernel-joined") /* datagrams that the kernel joined too: the library gets their pieces */ \
    event(SENT, "sent")                   /* datagrams that the kernel took */ \
    event(UNSENT, "unsent")               /* and that it did not take */ \
    event(CUT, "cut")                     /* datagrams that it took and cuts for the near link */ \
    event(NEAR_REPORTS, "near-reports")   /* sizes of the near link that were handed to the node */

#define NAME(name, text) name,
enum call { CALLS(NAME) CALL_COUNT };
enum event { EVENTS(NAME) EVENT_COUNT };
#undef NAME

#define NUMBERS 32
_Static_assert(BOGTRUMPET_RECORDING_MALFORMED < NUMBERS, "the library's last number is counted");

struct counters {
    uint64_t calls[CALL_COUNT][NUMBERS]; /* by the number that a call gave */
    uint64_t events[EVENT_COUNT];
};

/* ---- carry.c: packets on their way -------------------------------------------------------------------------------- */

struct service {
    const struct service_config *config;
    uint8_t number; /* the library's */
    int tun;
    struct bogtrumpet_prefixes prefixes;
    struct {
        uint32_t neighbour;
        uint8_t locator;
    } users[NEIGHBOURS]; /* which locator a neighbour last used as its router, at a place that its address gives */
    uint32_t heard_router; /* that advertised last, 0 where there is none */
    uint32_t heard_until;
    struct counters counters;
    uint8_t memory[BOGTRUMPET_MEMORY];
};

struct sockets {
    int tunnel; /* raw, protocol 41: datagrams that come, and those that the kernel cuts */
    int pieces; /* packet socket: pieces of protocol 41, as they come */
    int out;    /* raw, with the library's own header */
    int icmp;   /* raw: size reports */
};

struct host {
    struct config config;
    struct bogtrumpet_node node;
    struct service services[SERVICES];
    struct counters node_counters; /* of size reports, which name no service */
    struct sockets sockets;
    uint32_t started;
    unsigned indexes[INTERFACES]; /* the kernel's numbers of the interfaces, 0 for one that is not there */
    uint32_t indexes_time;        /* at which they were looked up */
};

/* Seconds since the machine started, those of sleep too. */
uint32_t now(void);

/* An IPv4 datagram that arrived on the interface of that index. One that the kernel joined of pieces is left: the library gets these. */
void take_datagram(struct host *host, const uint8_t *datagram, size_t length, unsigned index, bool kernel_joined);

/* An IPv6 packet that the service's device has for the tunnel. */
void take_packet(struct host *host, struct service *service, const uint8_t *packet, size_t length);

/* An ICMPv4 message behind its IPv4 header. */
void take_report(struct host *host, const uint8_t *datagram, size_t length);

/* Asks the routers that are due. */
void ask_routers(struct host *host);

/* Puts the router lists of another configuration in place, by the names of the services. */
void replace_routers(struct host *host, const struct config *config);

/* Writes the counters. */
void counters_text(const struct host *host, FILE *out);
void counters_json(const struct host *host, FILE *out);
void counters_say(const struct host *host);
void counters_files(const struct host *host);

/* ---- system.c: devices, sockets, privileges, the log --------------------------------------------------------------- */

/* Those that cannot be had end the program. */
int open_device(const struct service_config *service);
void open_sockets(struct sockets *sockets);
void drop_privileges(const char *user);

/* Hands a datagram to the kernel with its own header; or its payload, which the kernel cuts where the near link asks for it. */
bool put_datagram(const struct sockets *sockets, const uint8_t *datagram, size_t length);
bool put_cut(const struct sockets *sockets, const uint8_t *datagram, size_t length);

/* The size that the link takes over which the datagram goes, which is too long for it; 0 where that is not known. */
uint16_t near_link_size(const uint8_t *datagram, size_t length);

/* Has the kernel no longer join TCP segments that come in a tunnel: what a raw socket then gets has checksums that are not finished. */
void stop_joining_of_segments(const char *name);

/* Bytes for standard error, of which those that it does not take at once are lost: the tunnel does not wait for its log. */
void say(const char *bytes, size_t length);

/* A line of the log. It is left out where the same one was written in the same second, or 16 others. */
void note(const char *text, ...) __attribute__((format(printf, 1, 2)));

/* The same, with the error that errno names; then the program ends. */
_Noreturn void end(const char *text, ...) __attribute__((format(printf, 1, 2)));

#endif
