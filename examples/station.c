/*
 * Two tunnel ends in one program: the centre wraps a packet, the station unwraps it, whole and in pieces, and the centre takes a size
 * report and asks its router. Then a logger that two services share. examples/run builds it and compares what it prints with
 * examples/station.txt.
 */
#include "bogtrumpet.h"

#include <stdio.h>
#include <string.h>

#define CENTRE 0x0A000001u  /* 10.0.0.1 */
#define STATION 0x0A000002u /* 10.0.0.2 */
#define WEATHER 0x0A000003u /* 10.0.0.3 */
#define SEISMIC 0x0A000004u /* 10.0.0.4 */

static void say(const char *call, uint8_t number) {
    printf("%s: %s\n", call, bogtrumpet_number_text(number));
}

/* What comes in pieces is joined here. Every call of receiving by one service is lent the same memory, and nobody else writes into it. */
static uint8_t memory[BOGTRUMPET_MEMORY];

/* A datagram that the station gets at the time, and whether it brings the packet. */
static void receive(struct bogtrumpet_node *station, const uint8_t *datagram, size_t length, uint32_t time,
                    const uint8_t *packet, size_t packet_length) {
    struct bogtrumpet_received received =
        bogtrumpet_receive(station, BOGTRUMPET_FIRST, datagram, length, 0, time, memory, sizeof memory);
    say("receive", received.number);
    if (received.number == BOGTRUMPET_OK) {
        const uint8_t *inner = (received.joined ? memory : datagram) + received.offset;
        bool same = received.length == packet_length && memcmp(inner, packet, packet_length) == 0;
        printf("  %zu bytes, %s%s\n", received.length, same ? "as they were sent" : "others than were sent",
               received.joined ? ", joined" : "");
    }
}

/* The piece of a datagram from a byte of its payload on, a multiple of 8, as it is cut for a link of 1,492 bytes. */
static size_t cut(const uint8_t *datagram, size_t length, size_t start, uint8_t *piece) {
    size_t rest = length - BOGTRUMPET_OUTER_HEADER_LENGTH - start, payload = rest > 1472 ? 1472 : rest;
    size_t total = BOGTRUMPET_OUTER_HEADER_LENGTH + payload, fragment = start / 8 | (rest > payload ? 0x2000u : 0);
    memcpy(piece, datagram, BOGTRUMPET_OUTER_HEADER_LENGTH);
    memcpy(piece + BOGTRUMPET_OUTER_HEADER_LENGTH, datagram + BOGTRUMPET_OUTER_HEADER_LENGTH + start, payload);
    piece[2] = (uint8_t)(total >> 8), piece[3] = (uint8_t)total;
    piece[6] = (uint8_t)(fragment >> 8), piece[7] = (uint8_t)fragment;
    piece[10] = piece[11] = 0;
    uint16_t sum = bogtrumpet_checksum(0, piece, BOGTRUMPET_OUTER_HEADER_LENGTH);
    piece[10] = (uint8_t)(~sum >> 8), piece[11] = (uint8_t)~sum;
    return total;
}

/* An IPv6 packet of 40 + 1,440 bytes from the centre's link-local address. */
static uint8_t packet[1480] = {0x60, [4] = 1440 >> 8, 1440 & 255, 17};

/* Sends the packet to the station, and gives the length of the datagram. */
static size_t send(struct bogtrumpet_node *node, uint8_t service, uint32_t time, uint8_t *out, size_t room) {
    struct bogtrumpet_address next_hop = bogtrumpet_link_local(STATION);
    struct bogtrumpet_sent sent =
        bogtrumpet_send(node, service, packet, sizeof packet, next_hop, 0, time, out, room);
    say("send", sent.number);
    if (sent.number == BOGTRUMPET_OK)
        printf("  a datagram of %zu bytes\n", sent.length);
    if (sent.number == BOGTRUMPET_TOO_BIG)
        printf("  at most %u pass, a message of %zu bytes for the sender\n", sent.size, sent.message_length);
    return sent.length;
}

/* A size report of a router between the two about the datagram. */
static void report(struct bogtrumpet_node *node, const uint8_t *datagram, uint16_t size, uint32_t time) {
    uint8_t message[28] = {3, 4, [6] = (uint8_t)(size >> 8), (uint8_t)size};
    memcpy(message + 8, datagram, BOGTRUMPET_OUTER_HEADER_LENGTH);
    uint16_t sum = bogtrumpet_checksum(0, message, sizeof message);
    message[2] = (uint8_t)(~sum >> 8);
    message[3] = (uint8_t)~sum;
    struct bogtrumpet_reported reported = bogtrumpet_report(node, message, sizeof message, time);
    say("report", reported.number);
    printf("  %08x has %u\n", (unsigned)reported.neighbour, reported.size);
}

/* The path sizes of both services toward the station. */
static void sizes(const struct bogtrumpet_node *node) {
    struct bogtrumpet_sized first = bogtrumpet_path_size(node, BOGTRUMPET_FIRST, STATION);
    struct bogtrumpet_sized second = bogtrumpet_path_size(node, BOGTRUMPET_SECOND, STATION);
    printf("path sizes %u and %u\n", first.size, second.size);
}

/* A logger with two services, each on a link of its own: what the second is told of a path counts for the first too, as far as that is
   below the size of its link. */
static void two_services(void) {
    struct bogtrumpet_node logger;
    struct bogtrumpet_settings weather = bogtrumpet_defaults((struct bogtrumpet_settings){
        .locators = {{WEATHER, 0}}, .locator_count = 1});
    struct bogtrumpet_settings seismic = bogtrumpet_defaults((struct bogtrumpet_settings){
        .locators = {{SEISMIC, 1}}, .locator_count = 1});
    seismic.link_size = 9000;
    say("new_pair", bogtrumpet_new_pair(&logger, weather, seismic));
    sizes(&logger);
    uint8_t out[1500];
    if (send(&logger, BOGTRUMPET_SECOND, 1000, out, sizeof out) == 0)
        return;
    report(&logger, out, 5000, 1001);
    sizes(&logger);
    report(&logger, out, 1400, 1002);
    sizes(&logger);
    send(&logger, BOGTRUMPET_FIRST, 1003, out, sizeof out);
    send(&logger, BOGTRUMPET_SECOND, 1003, out, sizeof out);
    printf("next identifications %u and %u, latest time %u\n", logger.first.identification, logger.second.identification,
           (unsigned)logger.latest);
}

int main(void) {
    struct bogtrumpet_node centre, station;
    say("new", bogtrumpet_new(&centre, bogtrumpet_defaults((struct bogtrumpet_settings){
        .locators = {{CENTRE, 0}}, .locator_count = 1, .routers = {STATION}, .router_count = 1})));
    say("new", bogtrumpet_new(&station, bogtrumpet_defaults((struct bogtrumpet_settings){
        .locators = {{STATION, 0}}, .locator_count = 1})));

    struct bogtrumpet_address source = bogtrumpet_link_local(CENTRE);
    memcpy(packet + 8, source.bytes, 16);
    uint8_t datagram[1500];
    size_t length = send(&centre, BOGTRUMPET_FIRST, 1000, datagram, sizeof datagram);

    receive(&station, datagram, length, 1000, packet, sizeof packet);
    say("receive on another interface",
        bogtrumpet_receive(&station, BOGTRUMPET_FIRST, datagram, length, 1, 1000, memory, sizeof memory).number);

    /* The same datagram in two pieces, the last one first. */
    uint8_t piece[1492], out[1500];
    receive(&station, piece, cut(datagram, length, 1472, piece), 1000, packet, sizeof packet);
    receive(&station, piece, cut(datagram, length, 0, piece), 1001, packet, sizeof packet);

    report(&centre, datagram, 1400, 1001);
    send(&centre, BOGTRUMPET_FIRST, 1002, out, sizeof out);

    uint8_t solicitation[BOGTRUMPET_SOLICITATION_LENGTH];
    struct bogtrumpet_asked asked = bogtrumpet_ask(&centre, BOGTRUMPET_FIRST, 0, 1003, solicitation, sizeof solicitation);
    say("ask", asked.number);
    printf("  %08x is asked\n", (unsigned)asked.router);
    say("ask", bogtrumpet_ask(&centre, BOGTRUMPET_FIRST, 0, 1004, solicitation, sizeof solicitation).number);
    printf("path size %u, next identification %u, latest time %u\n",
           bogtrumpet_path_size(&centre, BOGTRUMPET_FIRST, STATION).size, centre.first.identification,
           (unsigned)centre.latest);
    say("path size of a second service", bogtrumpet_path_size(&centre, BOGTRUMPET_SECOND, STATION).number);
    two_services();
    return 0;
}
