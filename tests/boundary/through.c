/*
 * Every call once more through C: linked with --wrap, the test's calls come here and go on to the library as the header has them.
 * The rest is the header's own, for layout.rs to compare with the Rust package's.
 */
#include "bogtrumpet.h"

/* NAME as the test calls it, and the library's, both with the header's type. */
#define FORWARD(type, name, parameters, arguments)        \
    __typeof__(bogtrumpet_##name) __real_bogtrumpet_##name; \
    __typeof__(bogtrumpet_##name) __wrap_bogtrumpet_##name; \
    type __wrap_bogtrumpet_##name parameters { return __real_bogtrumpet_##name arguments; }

typedef struct bogtrumpet_node node_t;
typedef struct bogtrumpet_address address_t;
typedef const uint8_t *bytes_t;

FORWARD(struct bogtrumpet_settings, defaults, (struct bogtrumpet_settings s), (s))
FORWARD(uint8_t, new, (node_t *n, struct bogtrumpet_settings s), (n, s))
FORWARD(uint8_t, new_pair, (node_t *n, struct bogtrumpet_settings first, struct bogtrumpet_settings second), (n, first, second))
FORWARD(struct bogtrumpet_received, receive,
        (node_t *n, uint8_t service, bytes_t d, size_t length, uint8_t i, uint32_t time, uint8_t *memory, size_t memory_length),
        (n, service, d, length, i, time, memory, memory_length))
FORWARD(struct bogtrumpet_sent, send,
        (node_t *n, uint8_t service, bytes_t p, size_t length, address_t hop, size_t locator, uint32_t time, uint8_t *out, size_t room),
        (n, service, p, length, hop, locator, time, out, room))
FORWARD(struct bogtrumpet_reported, report, (node_t *n, bytes_t m, size_t length, uint32_t time), (n, m, length, time))
FORWARD(uint8_t, replace_routers, (node_t *n, uint8_t service, struct bogtrumpet_addresses list, uint32_t time),
        (n, service, list, time))
FORWARD(struct bogtrumpet_asked, ask,
        (node_t *n, uint8_t service, size_t locator, uint32_t time, uint8_t *out, size_t room),
        (n, service, locator, time, out, room))
FORWARD(struct bogtrumpet_heard, hear, (node_t *n, uint8_t service, bytes_t p, size_t length, uint32_t time),
        (n, service, p, length, time))
FORWARD(struct bogtrumpet_advertised, advertise,
        (const node_t *n, uint8_t service, bytes_t p, size_t length, size_t locator, struct bogtrumpet_advertisement a, uint8_t *out,
         size_t room),
        (n, service, p, length, locator, a, out, room))
FORWARD(struct bogtrumpet_sized, path_size, (const node_t *n, uint8_t service, uint32_t neighbour), (n, service, neighbour))
FORWARD(uint16_t, checksum, (uint32_t start, bytes_t b, size_t length), (start, b, length))
FORWARD(bool, checksum_right, (bytes_t b, size_t length), (b, length))
FORWARD(bool, forbidden, (uint32_t address), (address))
FORWARD(struct bogtrumpet_embedded, isatap, (struct bogtrumpet_prefixes p, address_t a), (p, a))
FORWARD(address_t, link_local, (uint32_t address), (address))
FORWARD(bool, bad_source, (address_t a), (a))
FORWARD(struct bogtrumpet_outer_read, read_outer, (bytes_t d, size_t length), (d, length))
FORWARD(struct bogtrumpet_received, unwrap, (bytes_t d, size_t length), (d, length))
FORWARD(struct bogtrumpet_written, wrap, (struct bogtrumpet_outer h, bytes_t p, size_t length, uint8_t *out, size_t room),
        (h, p, length, out, room))
FORWARD(struct bogtrumpet_written, too_big, (address_t a, uint16_t size, bytes_t p, size_t length, uint8_t *out, size_t room),
        (a, size, p, length, out, room))
FORWARD(struct bogtrumpet_written, solicitation, (uint32_t locator, uint32_t router, uint8_t *out, size_t room),
        (locator, router, out, room))
FORWARD(struct bogtrumpet_compared, compare,
        (bool masked, bytes_t first, size_t first_length, bytes_t second, size_t second_length, uint8_t *out, size_t room),
        (masked, first, first_length, second, second_length, out, room))

/* The header's texts and constants, for layout.rs. */
const char *bogtrumpet_text(uint8_t number);
const char *bogtrumpet_text(uint8_t number) { return bogtrumpet_number_text(number); }

const size_t bogtrumpet_constants[19] = {
    BOGTRUMPET_MAX_LOCATORS, BOGTRUMPET_MAX_PREFIXES, BOGTRUMPET_MAX_ROUTERS, BOGTRUMPET_MAX_NEIGHBOURS,
    BOGTRUMPET_OUTER_HEADER_LENGTH, BOGTRUMPET_SOLICITATION_LENGTH, BOGTRUMPET_MAX_TOO_BIG_LENGTH,
    BOGTRUMPET_MAX_SENT_LENGTH, BOGTRUMPET_MEMORY, BOGTRUMPET_MAX_ADVERTISED, BOGTRUMPET_MAX_ADVERTISEMENT_LENGTH,
    BOGTRUMPET_PREFERENCE_HIGH, BOGTRUMPET_PREFERENCE_LOW, BOGTRUMPET_FIRST, BOGTRUMPET_SECOND, BOGTRUMPET_RUN_LENGTH,
    BOGTRUMPET_MORE_NEITHER, BOGTRUMPET_MORE_FIRST, BOGTRUMPET_MORE_SECOND,
};

/* The place of each field and the size of each struct, in the header's order; layout.rs has the same list. */
#define AT(name, field) offsetof(struct bogtrumpet_##name, field)
#define SIZE(name) sizeof(struct bogtrumpet_##name)

const size_t bogtrumpet_layout[] = {
    AT(address, bytes), SIZE(address),
    AT(locator, address), AT(locator, interface), SIZE(locator),
    AT(settings, locators), AT(settings, locator_count), AT(settings, prefixes), AT(settings, prefix_count),
    AT(settings, routers), AT(settings, router_count), AT(settings, link_size), AT(settings, ttl),
    AT(settings, interval), AT(settings, identification), AT(settings, reporting), SIZE(settings),
    AT(router_list, addresses), AT(router_list, dues), AT(router_list, count), SIZE(router_list),
    AT(key, source), AT(key, destination), AT(key, identification), AT(key, protocol), SIZE(key),
    AT(place, held), AT(place, key), AT(place, first), AT(place, end), AT(place, reach), AT(place, used), SIZE(place),
    AT(collection, places), SIZE(collection),
    AT(service, settings), AT(service, routers), AT(service, pieces), AT(service, identification), SIZE(service),
    AT(paths, neighbours), AT(paths, sizes), AT(paths, times), AT(paths, count), SIZE(paths),
    AT(node, first), AT(node, second), AT(node, paths), AT(node, latest), AT(node, both), SIZE(node),
    AT(addresses, routers), AT(addresses, count), SIZE(addresses),
    AT(advertised_prefix, bytes), AT(advertised_prefix, valid), AT(advertised_prefix, preferred),
    AT(advertised_prefix, length), AT(advertised_prefix, on_link), AT(advertised_prefix, autonomous), SIZE(advertised_prefix),
    AT(advertised_route, bytes), AT(advertised_route, lifetime), AT(advertised_route, length),
    AT(advertised_route, preference), SIZE(advertised_route),
    AT(advertisement, prefixes), AT(advertisement, prefix_count), AT(advertisement, routes), AT(advertisement, route_count),
    AT(advertisement, lifetime), AT(advertisement, managed), AT(advertisement, other), SIZE(advertisement),
    AT(received, number), AT(received, joined), AT(received, offset), AT(received, length), SIZE(received),
    AT(sent, number), AT(sent, size), AT(sent, length), AT(sent, message_length), SIZE(sent),
    AT(reported, number), AT(reported, neighbour), AT(reported, size), SIZE(reported),
    AT(sized, number), AT(sized, size), SIZE(sized),
    AT(asked, number), AT(asked, router), SIZE(asked),
    AT(heard, number), AT(heard, router), SIZE(heard),
    AT(advertised, number), AT(advertised, length), SIZE(advertised),
    AT(prefixes, bytes), AT(prefixes, count), SIZE(prefixes),
    AT(embedded, found), AT(embedded, address), SIZE(embedded),
    AT(outer_read, number), AT(outer_read, protocol), AT(outer_read, header), AT(outer_read, total),
    AT(outer_read, source), AT(outer_read, destination), SIZE(outer_read),
    AT(outer, identification), AT(outer, dont_fragment), AT(outer, ttl), AT(outer, protocol),
    AT(outer, source), AT(outer, destination), SIZE(outer),
    AT(written, number), AT(written, length), SIZE(written),
    AT(compared, number), AT(compared, more), AT(compared, length), SIZE(compared),
};
const size_t bogtrumpet_layout_length = sizeof bogtrumpet_layout / sizeof bogtrumpet_layout[0];
