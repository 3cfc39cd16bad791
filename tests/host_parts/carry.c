/*
 * What host/carry.c does with packets, without devices and sockets: the kernel is played here. Random ones, and near links of any size.
 *  - A packet that the device hands over is sent once and unchanged, whole or cut, from the locator that its source embeds or that the
 *    tunnel end uses as its router, to the end that its destination embeds or to the default router; or its sender gets a Packet Too Big: none is lost.
 *  - A datagram is delivered exactly if a second node, handed the same calls, delivers it, and the same bytes; but a solicitation where we
 *    advertise, and an advertisement that the second node refuses, are not.
 *  - Whatever the bytes, nothing is read or written that is not ours: run under the sanitizers.
 */
#include "../../host/bogtrumpetd.h"

#include <errno.h>
#include <stdarg.h>
#include <stdlib.h>
#include <string.h>
#include <sys/socket.h>
#include <unistd.h>

#define CENTRE 0x0A000001u /* 10.0.0.1 */
#define NEAR 0x0A000002u   /* 10.0.0.2, and so on */
#define ROUTER 0x0A000004u /* the default router */
#define OTHER 0x0A000020u  /* the centre's second locator */
#define PEERS 8

static struct host host;
static unsigned loopback;
static int device; /* the other end of the service's */
static uint16_t near_sizes[PEERS];
static uint32_t used[256]; /* the locator that a neighbour last used as its router, by the last byte of its address */
static unsigned sent, cut, delivered, runs[8];
static uint8_t last_sent[LONGEST], last_delivered[LONGEST];
static size_t sent_length, delivered_length;

/* ---- The kernel, as it is played ------------------------------------------------------------------------------------ */

static uint16_t size_toward(const uint8_t *datagram) {
    return near_sizes[datagram[19] % PEERS];
}

static bool take(const uint8_t *datagram, size_t length, unsigned *count) {
    ++*count;
    memcpy(last_sent, datagram, length);
    sent_length = length;
    return true;
}

bool put_datagram(const struct sockets *sockets, const uint8_t *datagram, size_t length) {
    (void)sockets;
    errno = EMSGSIZE;
    return length <= size_toward(datagram) && take(datagram, length, &sent);
}

bool put_cut(const struct sockets *sockets, const uint8_t *datagram, size_t length) {
    (void)sockets;
    return take(datagram, length, &cut);
}

uint16_t near_link_size(const uint8_t *datagram, size_t length) {
    return size_toward(datagram) < length ? size_toward(datagram) : 0;
}

void note(const char *text, ...) {
    (void)text;
}

void end(const char *text, ...) {
    fprintf(stderr, "carry: %s\n", text);
    exit(1);
}

static void must(bool fact, const char *what) {
    if (!fact) {
        fprintf(stderr, "carry: %s\n", what);
        exit(1);
    }
}

static void drain(void) {
    ssize_t length;
    while ((length = recv(device, last_delivered, sizeof last_delivered, MSG_DONTWAIT)) >= 0) {
        delivered++;
        delivered_length = (size_t)length;
    }
}

/* ---- Random packets ------------------------------------------------------------------------------------------------- */

static uint64_t state = 88172645463325252u;

static unsigned below(unsigned bound) {
    state ^= state << 13, state ^= state >> 7, state ^= state << 17;
    return (unsigned)(state >> 20) % bound;
}

/* An IPv6 packet of that length from one link-local ISATAP address to another, with some kinds of messages in it. */
static void make_packet(uint8_t *packet, size_t length, uint32_t from, uint32_t to) {
    static const uint8_t kinds[] = {17, 6, 58, 58, 60, 44, 0, 59}, types[] = {128, 133, 134, 135, 137, 2};
    struct bogtrumpet_address source = bogtrumpet_link_local(from), destination = bogtrumpet_link_local(to);
    for (size_t i = 0; i < length; i++)
        packet[i] = (uint8_t)below(256);
    packet[0] = 0x60;
    packet[4] = (uint8_t)((length - 40) >> 8), packet[5] = (uint8_t)(length - 40);
    packet[6] = kinds[below(sizeof kinds)], packet[7] = 255;
    memcpy(packet + 8, source.bytes, 16);
    memcpy(packet + 24, destination.bytes, 16);
    if (length > 48) {
        packet[40] = packet[6] == 58 ? types[below(sizeof types)] : kinds[below(sizeof kinds)];
        packet[41] = 0;
        packet[42] = below(2) ? 0 : packet[42], packet[43] = below(2) ? packet[43] & 7 : packet[43];
        packet[48] = types[below(sizeof types)];
    }
}

/* A good solicitation or advertisement, since a random one has a wrong checksum. */
static size_t make_message(uint8_t *packet, uint32_t from, uint32_t to) {
    struct bogtrumpet_written written = bogtrumpet_solicitation(from, to, packet, 2048);
    uint16_t lifetime = (uint16_t)below(3);
    if (below(2) == 0)
        return written.length;
    struct bogtrumpet_advertisement empty = {.lifetime = lifetime};
    struct bogtrumpet_settings settings = {.locators = {{to, 0}}, .locator_count = 1};
    static struct bogtrumpet_node other;
    uint8_t out[512];
    must(bogtrumpet_new(&other, bogtrumpet_defaults(settings)) == 0, "the advertiser's node");
    struct bogtrumpet_advertised said = bogtrumpet_advertise(&other, 0, packet, written.length, 0, empty, out, sizeof out);
    must(said.number == 0, "the advertisement");
    memcpy(packet, out, said.length);
    return said.length;
}

/* ---- What is held ---------------------------------------------------------------------------------------------------- */

static uint32_t ipv4(const uint8_t *at) {
    return (uint32_t)at[0] << 24 | (uint32_t)at[1] << 16 | (uint32_t)at[2] << 8 | at[3];
}

/* The packet went out once, or its sender was told a smaller size. */
static void sent_or_told(const uint8_t *packet, size_t length, uint32_t locator, uint32_t end) {
    if (sent + cut == 1) {
        must(delivered == 0, "a packet is sent, and a message written");
        must(sent_length == length + 20 && memcmp(last_sent + 20, packet, length) == 0, "a packet is sent that is another");
        must(ipv4(last_sent + 12) == locator && ipv4(last_sent + 16) == end, "from another locator, or to another end");
        must(sent == 1 || (last_sent[6] & 0x40) == 0, "a datagram with don't-fragment is cut");
        must(sent == 0 || sent_length <= near_sizes[end % PEERS], "the near link is passed over");
    } else {
        unsigned named = (unsigned)last_delivered[46] << 8 | last_delivered[47];
        must(sent + cut == 0 && delivered == 1, "a packet is lost, or sent twice");
        must(last_delivered[40] == 2 && named >= 1280 && named < length, "the message names no smaller size");
    }
    runs[sent == 1 ? 0 : cut == 1 ? 1 : 2]++;
}

/* From the device: near links that may be short, packets of any length, from either locator, to neighbours and to others. */
static void hand_over(void) {
    uint8_t packet[2048];
    size_t length = 40 + below(1700);
    uint32_t locator = below(2) ? CENTRE : OTHER, end = NEAR + below(PEERS);
    make_packet(packet, length, locator, end);
    packet[6] = 17; /* what draws a message */
    if (below(4) == 0) {
        packet[24] = 0x20;
        end = ROUTER;
    }
    if (below(4) == 0) { /* from behind us */
        packet[16] = 1;
        locator = used[end & 255] != 0 ? used[end & 255] : CENTRE;
    }
    sent = cut = delivered = 0;
    take_packet(&host, &host.services[0], packet, length);
    drain();
    sent_or_told(packet, length, locator, end);
}

/* The half of a datagram as a piece. */
static size_t cut_half(uint8_t *datagram, size_t total) {
    size_t half = (total - 20) / 16 * 8, start = below(2) ? half : 0, rest = start == 0 ? half : total - 20 - half;
    unsigned flags = (unsigned)(start / 8) | (start == 0 ? 0x2000u : 0);
    memmove(datagram + 20, datagram + 20 + start, rest);
    datagram[2] = (uint8_t)((20 + rest) >> 8), datagram[3] = (uint8_t)(20 + rest);
    datagram[6] = (uint8_t)(flags >> 8), datagram[7] = (uint8_t)flags;
    datagram[10] = datagram[11] = 0;
    uint16_t sum = (uint16_t)~bogtrumpet_checksum(0, datagram, 20);
    datagram[10] = (uint8_t)(sum >> 8), datagram[11] = (uint8_t)sum;
    return 20 + rest;
}

/* A datagram to the centre: a packet or a message, whole or a half, mostly right. */
static size_t make_datagram(uint8_t *datagram, size_t room) {
    uint8_t packet[2048];
    uint32_t from = NEAR + below(PEERS);
    size_t length = 40 + below(900);
    if (below(3) == 0)
        length = below(2) ? make_message(packet, from, CENTRE) : make_message(packet, CENTRE, from);
    else
        make_packet(packet, length, from, CENTRE);
    if (below(4) == 0)
        packet[24] = 0x20; /* goes further */
    struct bogtrumpet_outer outer = {(uint16_t)below(4), 0, 64, 41, below(9) ? from : from ^ 1, below(2) ? CENTRE : OTHER};
    size_t total = bogtrumpet_wrap(outer, packet, length, datagram, room).length;
    if (below(3) == 0)
        total = cut_half(datagram, total);
    if (below(4) == 0)
        datagram[below((unsigned)total)] ^= (uint8_t)(1u << below(8));
    return below(16) ? total : below((unsigned)total + 1);
}

/* The type of an ICMPv6 message from the next header `kind` on, at the rest of a packet. */
static unsigned type_of(unsigned kind, const uint8_t *rest, size_t length) {
    if (kind == 58)
        return length > 0 ? rest[0] : 0;
    if (kind == 44 && length >= 8 && ((unsigned)rest[2] << 8 | rest[3]) >= 8)
        return 0; /* a fragment that is not the first: RFC 8200, 4.5 */
    size_t header = kind == 44 ? 8 : kind == 0 || kind == 43 || kind == 60 ? 8 + 8 * (length > 1 ? (size_t)rest[1] : 0) : 0;
    return header == 0 || length < 8 || length < header ? 0 : type_of(rest[0], rest + header, length - header);
}

/* From IPv4, beside a second node. */
static void arrive(void) {
    static struct bogtrumpet_node twin;
    static uint8_t memory[BOGTRUMPET_MEMORY];
    uint8_t datagram[2200], inner[2048];
    size_t total = make_datagram(datagram, sizeof datagram);
    twin = host.node;
    memcpy(memory, host.services[0].memory, sizeof memory);
    uint32_t time = now();
    struct bogtrumpet_received received = bogtrumpet_receive(&twin, 0, datagram, total, 0, time, memory, sizeof memory);
    memcpy(inner, (received.joined ? memory : datagram) + received.offset, received.length);
    unsigned type = received.number == 0 ? type_of(inner[6], inner + 40, received.length - 40) : 0;
    bool heard = type == 134 && bogtrumpet_hear(&twin, 0, inner, received.length, time).number == 0;
    bool expected = received.number == 0 && type != 133 && (type != 134 || heard);
    delivered = sent = cut = 0;
    take_datagram(&host, datagram, total, loopback, true);
    drain();
    must(delivered + sent + cut == 0, "what the kernel joined is taken");
    take_datagram(&host, datagram, total, loopback, false);
    drain();
    struct bogtrumpet_address destination;
    memcpy(destination.bytes, inner + 24, 16);
    if (received.number == 0 && (type == 133 || !bogtrumpet_isatap((struct bogtrumpet_prefixes){.count = 0}, destination).found))
        used[datagram[15]] = ipv4(datagram + 16);
    must(delivered == expected, "delivered where the second node does not, or the other way round");
    must(!expected || (delivered_length == received.length && memcmp(last_delivered, inner, delivered_length) == 0), "other bytes are delivered");
    runs[expected && received.joined ? 3 : heard ? 4 : type == 133 && sent ? 5 : expected ? 6 : 7]++;
}

/* Any bytes at all. */
static void noise(void) {
    uint8_t bytes[256];
    size_t length = below(sizeof bytes + 1);
    for (size_t i = 0; i < length; i++)
        bytes[i] = (uint8_t)(below(4) ? below(256) : below(2) ? 0x45 : 41);
    take_datagram(&host, bytes, length, below(9), below(2));
    take_packet(&host, &host.services[0], bytes, length);
    take_report(&host, bytes, length);
    drain();
}

int main(int count, char **words) {
    static char *options[] = {"--tun", "t0", "--locator", "10.0.0.1%lo", "--locator", "10.0.0.32%lo",
                               "--default-router", "10.0.0.4", "--router", "10.0.0.2", "--router", "10.0.0.3", "--advertise-lifetime", "60", NULL};
    unsigned long turns = count > 1 ? strtoul(words[1], NULL, 10) : 100000;
    int ends[2];
    must(config_read(&host.config, options), "the configuration");
    must(socketpair(AF_UNIX, SOCK_DGRAM, 0, ends) == 0, "two ends");
    struct service *service = &host.services[0];
    service->config = &host.config.services[0];
    service->tun = ends[0], device = ends[1];
    must(bogtrumpet_new(&host.node, service->config->settings) == 0, "the node");
    loopback = if_nametoindex("lo");
    for (unsigned long turn = 0; turn < turns; turn++) {
        if (turn % 4096 == 0) { /* other links, and a node that knows nothing of them */
            for (size_t i = 0; i < PEERS; i++)
                near_sizes[i] = (uint16_t)(68 + below(1500));
            must(bogtrumpet_new(&host.node, service->config->settings) == 0, "the node");
        }
        ask_routers(&host);
        unsigned kind = below(8);
        if (kind == 0)
            noise();
        else if (kind < 4)
            hand_over();
        else
            arrive();
    }
    static const char *const names[] = {"whole", "cut", "too big", "joined", "heard", "answered", "delivered", "not delivered"};
    for (size_t i = 0; i < 8; i++) {
        printf("%s%s %u", i > 0 ? ", " : "carry: ", names[i], runs[i]);
        must(runs[i] > 0, "something never came");
    }
    printf("\n");
    return 0;
}
