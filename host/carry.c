/* Packets on their way: each is handed to the library, and goes where the library's answer says. NOT PROVED. */
#include "bogtrumpetd.h"

#include <arpa/inet.h>
#include <errno.h>
#include <netinet/icmp6.h>
#include <netinet/in.h>
#include <string.h>
#include <time.h>
#include <unistd.h>

enum { SOURCE_IPV4 = 12, DESTINATION_IPV4 = 16, SOURCE_IPV6 = 8, DESTINATION_IPV6 = 24, NEXT_HEADER = 6, DONT_FRAGMENT = 0x40 };

uint32_t now(void) {
    struct timespec time;
    clock_gettime(CLOCK_BOOTTIME, &time);
    return (uint32_t)time.tv_sec;
}

static void count(struct counters *counters, enum call call, uint8_t number) {
    counters->calls[call][number % NUMBERS]++;
}

static uint32_t ipv4_at(const uint8_t *bytes) {
    return (uint32_t)bytes[0] << 24 | (uint32_t)bytes[1] << 16 | (uint32_t)bytes[2] << 8 | bytes[3];
}

static struct bogtrumpet_address ipv6_at(const uint8_t *bytes) {
    struct bogtrumpet_address address;
    memcpy(address.bytes, bytes, sizeof address.bytes);
    return address;
}

/* An address as people write it, good until the next. */
static const char *written(uint32_t address) {
    static char text[INET_ADDRSTRLEN];
    struct in_addr number = {htonl(address)};
    return inet_ntop(AF_INET, &number, text, sizeof text);
}

static void deliver(struct service *service, const uint8_t *packet, size_t length, bool joined) {
    bool taken = write(service->tun, packet, length) == (ssize_t)length;
    service->counters.events[taken ? DELIVERED : UNDELIVERED]++;
    service->counters.events[JOINED] += taken && joined;
    if (!taken)
        note("%s: the device took no packet of %zu bytes: %s", service->config->tun, length, strerror(errno));
}

/* ---- To IPv4 -------------------------------------------------------------------------------------------------------- */

/* A size report, in ICMPv4. */
static void report(struct host *host, const uint8_t *message, size_t length) {
    struct bogtrumpet_reported reported = bogtrumpet_report(&host->node, message, length, now());
    count(&host->node_counters, REPORT, reported.number);
    if (reported.number == BOGTRUMPET_OK)
        note("toward %s datagrams of %u bytes pass", written(reported.neighbour), reported.size);
}

/* The near link takes no such datagram: its size, as the next router would have reported it. */
static void report_near_link(struct host *host, struct service *service, const uint8_t *datagram, size_t length) {
    enum { QUOTED = BOGTRUMPET_OUTER_HEADER_LENGTH + 8 };
    uint16_t size = near_link_size(datagram, length);
    uint8_t message[8 + QUOTED] = {3, 4, [6] = (uint8_t)(size >> 8), (uint8_t)size};
    memcpy(message + 8, datagram, QUOTED);
    uint16_t sum = (uint16_t)~bogtrumpet_checksum(0, message, sizeof message);
    message[2] = (uint8_t)(sum >> 8), message[3] = (uint8_t)sum;
    service->counters.events[NEAR_REPORTS]++;
    report(host, message, sizeof message);
}

/* False where the packet is to be sent once more, since the node has been told the near link's size. */
static bool put(struct host *host, struct service *service, const uint8_t *datagram, size_t length) {
    if (put_datagram(&host->sockets, datagram, length)) {
        service->counters.events[SENT]++;
        return true;
    }
    if (errno == EMSGSIZE && datagram[6] & DONT_FRAGMENT) {
        report_near_link(host, service, datagram, length);
        return false;
    }
    bool cut = errno == EMSGSIZE && put_cut(&host->sockets, datagram, length);
    service->counters.events[cut ? CUT : UNSENT]++;
    if (!cut)
        note("%s: toward %s nothing is sent: %s", service->config->tun, written(ipv4_at(datagram + DESTINATION_IPV4)), strerror(errno));
    return true;
}

static void send_packet(struct host *host, struct service *service, const uint8_t *packet, size_t length,
                        struct bogtrumpet_address next_hop, size_t locator) {
    static uint8_t out[LONGEST];
    bool done = false;
    for (int turn = 0; turn < 2 && !done; turn++) {
        struct bogtrumpet_sent sent =
            bogtrumpet_send(&host->node, service->number, packet, length, next_hop, locator, now(), out, sizeof out);
        count(&service->counters, SEND, sent.number);
        if (sent.number == BOGTRUMPET_TOO_BIG && sent.message_length > 0)
            deliver(service, out, sent.message_length, false);
        done = sent.number != BOGTRUMPET_OK || put(host, service, out, sent.length);
    }
    service->counters.events[UNSENT] += !done;
    if (!done)
        note("%s: the near link takes no datagram of %zu bytes", service->config->tun, length + BOGTRUMPET_OUTER_HEADER_LENGTH);
}

/* An ISATAP address is its own next hop; all else goes to the router that the operator names, or that advertised last. A multicast
   address, and any where there is no router, stays as it is: the library refuses it. */
static struct bogtrumpet_address next_hop_of(const struct service *service, struct bogtrumpet_address destination) {
    uint32_t router = service->config->default_router;
    if (router == 0 && service->heard_until > now())
        router = service->heard_router;
    bool direct = destination.bytes[0] == 0xFF || bogtrumpet_isatap(service->prefixes, destination).found;
    return direct || router == 0 ? destination : bogtrumpet_link_local(router);
}

/* The first locator of the address; their number where there is none. */
static size_t locator_of(const struct service *service, uint32_t address) {
    const struct bogtrumpet_settings *settings = &service->config->settings;
    size_t i = 0;
    while (i < settings->locator_count && settings->locators[i].address != address)
        i++;
    return i;
}

/* The place of a neighbour among those that use us as a router. Two of one place take it from each other: one then gets the first locator. */
static size_t place_of(uint32_t neighbour) {
    return (neighbour ^ neighbour >> 12 ^ neighbour >> 24) % NEIGHBOURS;
}

/* The locator that the source embeds under whatever prefix, so that the two fit at the other end. A source that embeds none comes from behind us: then
   the one that the tunnel end uses as its router, which it lists; else the first. */
static size_t locator_toward(const struct service *service, struct bogtrumpet_address source, struct bogtrumpet_address next_hop) {
    struct bogtrumpet_prefixes own = {.count = 1};
    memcpy(own.bytes, source.bytes, BOGTRUMPET_PREFIX_LENGTH);
    size_t locator = locator_of(service, bogtrumpet_isatap(own, source).address);
    if (locator < service->config->settings.locator_count)
        return locator;
    uint32_t end = bogtrumpet_isatap(service->prefixes, next_hop).address;
    return service->users[place_of(end)].neighbour == end ? service->users[place_of(end)].locator : 0;
}

void take_packet(struct host *host, struct service *service, const uint8_t *packet, size_t length) {
    struct bogtrumpet_address source = {{0}}, destination = {{0}};
    if (length >= BOGTRUMPET_INNER_HEADER_LENGTH) {
        source = ipv6_at(packet + SOURCE_IPV6);
        destination = ipv6_at(packet + DESTINATION_IPV6);
    }
    struct bogtrumpet_address next_hop = next_hop_of(service, destination);
    send_packet(host, service, packet, length, next_hop, locator_toward(service, source, next_hop));
}

static bool router_due(const struct host *host, const struct service *service) {
    const struct bogtrumpet_router_list *list =
        service->number == BOGTRUMPET_FIRST ? &host->node.first.routers : &host->node.second.routers;
    for (size_t i = 0; i < list->count; i++)
        if (list->dues[i] <= now())
            return true;
    return false;
}

void ask_routers(struct host *host) {
    for (size_t i = 0; i < host->config.service_count; i++) {
        struct service *service = &host->services[i];
        uint8_t packet[BOGTRUMPET_SOLICITATION_LENGTH];
        for (int turn = 0; turn < BOGTRUMPET_MAX_ROUTERS && router_due(host, service); turn++) {
            struct bogtrumpet_asked asked = bogtrumpet_ask(&host->node, service->number, 0, now(), packet, sizeof packet);
            count(&service->counters, ASK, asked.number);
            if (asked.number == BOGTRUMPET_OK)
                send_packet(host, service, packet, sizeof packet, ipv6_at(packet + DESTINATION_IPV6), 0);
        }
    }
}

/* ---- From IPv4 ------------------------------------------------------------------------------------------------------ */

/* The type of the ICMPv6 message that the kernel finds in the packet, behind extension headers too; 0 where it finds none, as in a fragment
   that is not the first. */
static uint8_t message_type(const uint8_t *packet, size_t length) {
    uint8_t next = packet[NEXT_HEADER];
    size_t at = BOGTRUMPET_INNER_HEADER_LENGTH;
    while (at + 8 <= length && (next == IPPROTO_HOPOPTS || next == IPPROTO_ROUTING || next == IPPROTO_FRAGMENT || next == IPPROTO_DSTOPTS)) {
        size_t header = next == IPPROTO_FRAGMENT ? 8 : 8 * ((size_t)packet[at + 1] + 1);
        if (next == IPPROTO_FRAGMENT && (packet[at + 2] != 0 || packet[at + 3] >> 3 != 0))
            return 0;
        next = packet[at];
        at += header;
    }
    return next == IPPROTO_ICMPV6 && at < length ? packet[at] : 0;
}

static void answer_solicitation(struct host *host, struct service *service, const uint8_t *packet, size_t length, size_t locator) {
    uint8_t out[BOGTRUMPET_MAX_ADVERTISEMENT_LENGTH];
    struct bogtrumpet_advertised advertised = bogtrumpet_advertise(&host->node, service->number, packet, length, locator,
                                                                   service->config->advertisement, out, sizeof out);
    count(&service->counters, ADVERTISE, advertised.number);
    if (advertised.number == BOGTRUMPET_OK)
        send_packet(host, service, out, advertised.length, ipv6_at(out + DESTINATION_IPV6), locator);
}

/* Whether the library takes it. Who advertises a lifetime above 0 is the default router so long (RFC 4861, 6.3.4). */
static bool hear_advertisement(struct host *host, struct service *service, const uint8_t *packet, size_t length) {
    struct bogtrumpet_heard heard = bogtrumpet_hear(&host->node, service->number, packet, length, now());
    count(&service->counters, HEAR, heard.number);
    if (heard.number != BOGTRUMPET_OK)
        return false;
    uint32_t lifetime = (uint32_t)packet[46] << 8 | packet[47];
    bool other = heard.router != service->heard_router || service->heard_until <= now();
    if (lifetime > 0 && other)
        note("%s: the default router that advertised is %s", service->config->tun, written(heard.router));
    if (lifetime > 0 || !other) {
        service->heard_router = heard.router;
        service->heard_until = now() + lifetime;
    }
    return true;
}

/* A neighbour that solicits, or sends what goes further, uses the locator as its router. What is for one of our ISATAP addresses says nothing. */
static void remember_user(struct service *service, uint32_t neighbour, size_t locator, const uint8_t *packet, size_t length) {
    bool further = !bogtrumpet_isatap(service->prefixes, ipv6_at(packet + DESTINATION_IPV6)).found;
    if (!further && message_type(packet, length) != ND_ROUTER_SOLICIT)
        return;
    service->users[place_of(neighbour)].neighbour = neighbour;
    service->users[place_of(neighbour)].locator = (uint8_t)locator;
}

/* The kernel gets all but solicitations that are answered here, and advertisements that the library refuses. */
static void take_inner(struct host *host, struct service *service, const uint8_t *packet, size_t length, bool joined, size_t locator) {
    uint8_t type = message_type(packet, length);
    if (type == ND_ROUTER_SOLICIT && service->config->advertises)
        answer_solicitation(host, service, packet, length, locator);
    else if (type != ND_ROUTER_ADVERT || hear_advertisement(host, service, packet, length))
        deliver(service, packet, length, joined);
}

/* The library's number of an interface. An interface may go and come back under another index, or be renamed: names are looked up anew each second. */
static uint8_t interface_number(struct host *host, unsigned index) {
    if (host->indexes_time != now()) {
        host->indexes_time = now();
        for (size_t i = 0; i < host->config.interface_count; i++)
            host->indexes[i] = if_nametoindex(host->config.interfaces[i]);
    }
    for (size_t i = 0; i < host->config.interface_count; i++)
        if (index != 0 && host->indexes[i] == index)
            return (uint8_t)i;
    return NO_INTERFACE;
}

/* The service that has the address for a locator, else the first. */
static struct service *service_of(struct host *host, uint32_t address) {
    const struct bogtrumpet_settings *second = &host->config.services[1].settings;
    for (size_t i = 0; i < second->locator_count; i++)
        if (second->locators[i].address == address)
            return &host->services[1];
    return &host->services[0];
}

void take_datagram(struct host *host, const uint8_t *datagram, size_t length, unsigned index, bool kernel_joined) {
    uint32_t destination = length >= BOGTRUMPET_OUTER_HEADER_LENGTH ? ipv4_at(datagram + DESTINATION_IPV4) : 0;
    struct service *service = service_of(host, destination);
    service->counters.events[KERNEL_JOINED] += kernel_joined;
    if (kernel_joined)
        return;
    struct bogtrumpet_received received =
        bogtrumpet_receive(&host->node, service->number, datagram, length, interface_number(host, index), now(), service->memory,
                           sizeof service->memory);
    count(&service->counters, RECEIVE, received.number);
    if (received.number != BOGTRUMPET_OK)
        return;
    const uint8_t *inner = (received.joined ? service->memory : datagram) + received.offset;
    size_t locator = locator_of(service, destination);
    remember_user(service, ipv4_at(datagram + SOURCE_IPV4), locator, inner, received.length);
    take_inner(host, service, inner, received.length, received.joined, locator);
}

void take_report(struct host *host, const uint8_t *datagram, size_t length) {
    size_t header = length > 0 ? 4 * (size_t)(datagram[0] & 15) : 0;
    if (header <= length)
        report(host, datagram + header, length - header);
}

static void replace_list(struct host *host, struct service *service, const struct bogtrumpet_settings *settings) {
    struct bogtrumpet_addresses list = {.count = settings->router_count};
    memcpy(list.routers, settings->routers, sizeof list.routers);
    uint8_t number = bogtrumpet_replace_routers(&host->node, service->number, list, now());
    count(&service->counters, ROUTERS, number);
    note("%s: a list of %zu routers: %s", service->config->tun, list.count, bogtrumpet_number_text(number));
    if (number != BOGTRUMPET_OK)
        return;
    bool listed = false;
    for (size_t i = 0; i < list.count; i++)
        listed |= list.routers[i] == service->heard_router;
    if (!listed)
        service->heard_until = 0;
}

void replace_routers(struct host *host, const struct config *config) {
    for (size_t i = 0; i < host->config.service_count; i++)
        for (size_t j = 0; j < config->service_count; j++)
            if (strcmp(host->config.services[i].tun, config->services[j].tun) == 0)
                replace_list(host, &host->services[i], &config->services[j].settings);
}
