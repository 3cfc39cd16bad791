/* The configuration: lines `KEY VALUE` of files, and options `--KEY VALUE`. NOT PROVED. What settings are right, the library says. */
#include "bogtrumpetd.h"

#include <arpa/inet.h>
#include <errno.h>
#include <stdlib.h>
#include <string.h>

/* A configuration while it is read. */
struct reader {
    struct config *config;
    struct service_config *service; /* to which the next keys belong, NULL before the first */
    struct place place;
    const char *key;
    uint64_t given[2][SERVICES + 1]; /* the keys that a file gave, and that an option gave, of each service and of the node */
    bool wrong;
};

static void complain(struct reader *reader, struct place place, const char *what) {
    if (place.file != NULL)
        fprintf(stderr, "bogtrumpetd: %s:%u: %s\n", place.file, place.line, what);
    else
        fprintf(stderr, "bogtrumpetd: --%s: %s\n", reader->key, what);
    reader->wrong = true;
}

/* ---- Values: each gives what is wrong, or NULL --------------------------------------------------------------------- */

/* A number of as many bytes as its place has. */
static const char *number(const char *text, void *place, size_t bytes) {
    char *behind;
    errno = 0;
    uint64_t value = strtoull(text, &behind, 10);
    if (*text < '0' || *text > '9' || *behind != 0 || errno != 0 || value >> 8 * bytes != 0)
        return "no number that fits";
    memcpy(place, &value, bytes); /* little-endian, as all machines that the library is for */
    return NULL;
}

static const char *yes_or_no(const char *text, uint8_t *place) {
    *place = strcmp(text, "yes") == 0;
    return *place == 1 || strcmp(text, "no") == 0 ? NULL : "neither yes nor no";
}

static const char *ipv4(const char *text, uint32_t *address) {
    struct in_addr read;
    if (inet_pton(AF_INET, text, &read) != 1)
        return "no IPv4 address";
    *address = ntohl(read.s_addr);
    return NULL;
}

/* P/LENGTH, of which no bit past the length is set. */
static const char *prefix(char *text, uint8_t bytes[16], uint8_t *length) {
    static const char wrong[] = "no prefix, as 2001:db8::/64";
    char *slash = text != NULL ? strchr(text, '/') : NULL;
    if (slash == NULL)
        return wrong;
    *slash = 0;
    if (inet_pton(AF_INET6, text, bytes) != 1 || number(slash + 1, length, 1) != NULL || *length > 128)
        return wrong;
    for (size_t bit = *length; bit < 128; bit++)
        if (bytes[bit / 8] >> (7 - bit % 8) & 1)
            return "a bit past the prefix length is set";
    return NULL;
}

static const char *word(const char *text, char *place, size_t room) {
    if (strlen(text) >= room || strpbrk(text, "\"\\") != NULL)
        return "too long, or with a quote or a backslash";
    strcpy(place, text);
    return NULL;
}

/* ---- Keys that stand more than once -------------------------------------------------------------------------------- */

static const char *take_tun(struct reader *reader, char *value) {
    struct config *config = reader->config;
    for (size_t i = 0; i < config->service_count; i++)
        if (strcmp(config->services[i].tun, value) == 0) {
            reader->service = &config->services[i];
            return NULL;
        }
    if (config->service_count == SERVICES)
        return "a third service";
    if (strpbrk(value, "/%:") != NULL || strcmp(value, ".") == 0 || strcmp(value, "..") == 0)
        return "no name that the kernel takes for a device";
    reader->service = &config->services[config->service_count++];
    reader->service->place = reader->place;
    reader->service->advertisement.lifetime = 1800;
    return word(value, reader->service->tun, sizeof reader->service->tun);
}

/* The library's number of the interface. */
static const char *interface(struct config *config, const char *name, uint8_t *found) {
    size_t i = 0;
    while (i < config->interface_count && strcmp(config->interfaces[i], name) != 0)
        i++;
    *found = (uint8_t)i;
    if (i < config->interface_count)
        return NULL;
    if (i == INTERFACES)
        return "too many interfaces";
    const char *wrong = *name == 0 ? "no name of an interface" : word(name, config->interfaces[i], IFNAMSIZ);
    config->interface_count += wrong == NULL;
    return wrong;
}

static const char *take_locator(struct reader *reader, char *value) {
    struct bogtrumpet_settings *settings = &reader->service->settings;
    struct bogtrumpet_locator locator;
    char *percent = strchr(value, '%');
    if (settings->locator_count == BOGTRUMPET_MAX_LOCATORS)
        return "a ninth locator";
    if (percent == NULL)
        return "no locator, as 192.0.2.1%eth0";
    *percent = 0;
    const char *wrong = ipv4(value, &locator.address);
    if (wrong == NULL)
        wrong = interface(reader->config, percent + 1, &locator.interface);
    if (wrong != NULL)
        return wrong;
    settings->locators[settings->locator_count++] = locator;
    if (settings->locator_count == 1)
        *settings = bogtrumpet_defaults(*settings);
    return NULL;
}

static const char *take_prefix(struct reader *reader, char *value) {
    struct bogtrumpet_settings *settings = &reader->service->settings;
    uint8_t bytes[16], length;
    if (settings->prefix_count == BOGTRUMPET_MAX_PREFIXES)
        return "a ninth prefix";
    const char *wrong = prefix(value, bytes, &length);
    if (wrong != NULL || length != 64)
        return wrong != NULL ? wrong : "an on-link prefix has 64 bits";
    memcpy(settings->prefixes + BOGTRUMPET_PREFIX_LENGTH * settings->prefix_count++, bytes, BOGTRUMPET_PREFIX_LENGTH);
    return NULL;
}

static const char *take_router(struct reader *reader, char *value) {
    struct bogtrumpet_settings *settings = &reader->service->settings;
    if (settings->router_count == BOGTRUMPET_MAX_ROUTERS)
        return "a seventeenth router";
    return ipv4(value, &settings->routers[settings->router_count++]);
}

static const char *take_advertise_prefix(struct reader *reader, char *value) {
    struct bogtrumpet_advertisement *all = &reader->service->advertisement;
    struct bogtrumpet_advertised_prefix one = {.valid = 2592000, .preferred = 604800, .on_link = 1, .autonomous = 1};
    if (all->prefix_count == BOGTRUMPET_MAX_ADVERTISED)
        return "a ninth prefix";
    const char *wrong = prefix(strtok(value, ","), one.bytes, &one.length);
    for (char *part; wrong == NULL && (part = strtok(NULL, ",")) != NULL;) {
        if (strncmp(part, "valid=", 6) == 0)
            wrong = number(part + 6, &one.valid, sizeof one.valid);
        else if (strncmp(part, "preferred=", 10) == 0)
            wrong = number(part + 10, &one.preferred, sizeof one.preferred);
        else if (strcmp(part, "off-link") == 0)
            one.on_link = 0;
        else if (strcmp(part, "no-autonomous") == 0)
            one.autonomous = 0;
        else
            wrong = "of a prefix can be said: valid=, preferred=, off-link, no-autonomous";
    }
    all->prefixes[all->prefix_count++] = one;
    return wrong == NULL && one.preferred > one.valid ? "preferred for longer than valid" : wrong;
}

static const char *take_advertise_route(struct reader *reader, char *value) {
    static const char *const preferences[] = {"preference=medium", "preference=high", "preference=low"}; /* by the library's numbers */
    struct bogtrumpet_advertisement *all = &reader->service->advertisement;
    struct bogtrumpet_advertised_route one = {.lifetime = 1800};
    if (all->route_count == BOGTRUMPET_MAX_ADVERTISED)
        return "a ninth route";
    const char *wrong = prefix(strtok(value, ","), one.bytes, &one.length);
    for (char *part; wrong == NULL && (part = strtok(NULL, ",")) != NULL;) {
        uint8_t preference = 0;
        while (preference < 3 && strcmp(part, preferences[preference]) != 0)
            preference++;
        if (strncmp(part, "lifetime=", 9) == 0)
            wrong = number(part + 9, &one.lifetime, sizeof one.lifetime);
        else if (preference < 3)
            one.preference = preference;
        else
            wrong = "of a route can be said: lifetime=, preference=low, medium or high";
    }
    all->routes[all->route_count++] = one;
    return wrong;
}

/* ---- The keys ------------------------------------------------------------------------------------------------------- */

enum kind { WORD, NUMBER, FLAG, IPV4, IPV6, TAKEN };

/* A key whose kind is not TAKEN stands once, and its value goes to a place in the node's configuration or in the service's. */
static const struct key {
    const char *name, *refused; /* what is wrong where the library refuses the settings with it */
    const char *(*take)(struct reader *, char *value);
    enum kind kind;
    bool of_node;
    size_t place, room;
} keys[] = {
#define OF_NODE(field) true, offsetof(struct config, field), sizeof((struct config *)0)->field
#define OF_SERVICE(field) false, offsetof(struct service_config, field), sizeof((struct service_config *)0)->field
    {"tun", NULL, take_tun, TAKEN, true, 0, 0},
    {"user", NULL, NULL, WORD, OF_NODE(user)},
    {"counters", NULL, NULL, WORD, OF_NODE(counters)},
    {"counters-json", NULL, NULL, WORD, OF_NODE(counters_json)},
    {"locator", "forbidden, given twice, a router, or the other service's (R2.1, R2.2, R2.4, R26.2)", take_locator, TAKEN, false, 0, 0},
    {"prefix", "refused (R2.3)", take_prefix, TAKEN, false, 0, 0},
    {"router", "forbidden, given twice, or a locator's address (R2.4)", take_router, TAKEN, false, 0, 0},
    {"default-router", NULL, NULL, IPV4, OF_SERVICE(default_router)},
    {"link-size", "not from 576 to 9216 (R2.5)", NULL, NUMBER, OF_SERVICE(settings.link_size)},
    {"ttl", "not from 1 to 255 (R2.6)", NULL, NUMBER, OF_SERVICE(settings.ttl)},
    {"interval", "not from 1 to 3600 (R2.7)", NULL, NUMBER, OF_SERVICE(settings.interval)},
    {"identification", NULL, NULL, NUMBER, OF_SERVICE(settings.identification)},
    {"reporting", "multicast or :: (R2.9)", NULL, IPV6, OF_SERVICE(settings.reporting)},
    {"advertise-lifetime", NULL, NULL, NUMBER, OF_SERVICE(advertisement.lifetime)},
    {"advertise-managed", NULL, NULL, FLAG, OF_SERVICE(advertisement.managed)},
    {"advertise-other", NULL, NULL, FLAG, OF_SERVICE(advertisement.other)},
    {"advertise-prefix", NULL, take_advertise_prefix, TAKEN, false, 0, 0},
    {"advertise-route", NULL, take_advertise_route, TAKEN, false, 0, 0},
};

static const char *take_value(struct reader *reader, const struct key *key, char *value) {
    void *place = (key->of_node ? (char *)reader->config : (char *)reader->service) + key->place;
    const char *wrong;
    switch (key->kind) {
    case WORD: return word(value, place, key->room);
    case NUMBER: return number(value, place, key->room);
    case FLAG: return yes_or_no(value, place);
    case IPV4: wrong = ipv4(value, place); return wrong == NULL && bogtrumpet_forbidden(*(uint32_t *)place) ? "forbidden (R3.1)" : wrong;
    case IPV6: return inet_pton(AF_INET6, value, place) == 1 ? NULL : "no IPv6 address";
    default: return key->take(reader, value);
    }
}

/* Whether the library takes what is there so far; a service without a locator is not there yet. */
static bool accepted(const struct config *config) {
    static struct bogtrumpet_node node;
    const struct bogtrumpet_settings *first = &config->services[0].settings, *second = &config->services[1].settings;
    if (first->locator_count > 0 && second->locator_count > 0)
        return bogtrumpet_new_pair(&node, *first, *second) == BOGTRUMPET_OK;
    return bogtrumpet_new(&node, first->locator_count > 0 ? *first : *second) == BOGTRUMPET_OK;
}

/* What is wrong with the key here, or NULL. A key that stands once may stand in a file, and again as an option. */
static const char *take(struct reader *reader, const struct key *key, char *value) {
    struct service_config *service = reader->service;
    if (!key->of_node && service == NULL)
        return "stands before the first tun";
    if (!key->of_node && key->take != take_locator && service->settings.locator_count == 0)
        return "stands before the service's first locator";
    size_t owner = key->of_node ? SERVICES : (size_t)(service - reader->config->services);
    uint64_t *given = &reader->given[reader->place.file == NULL][owner], bit = (uint64_t)1 << (key - keys);
    if (key->kind != TAKEN && *given & bit)
        return "given twice";
    *given |= bit;
    struct service_config before = key->of_node ? (struct service_config){0} : *service;
    size_t interfaces = reader->config->interface_count;
    const char *wrong = take_value(reader, key, value);
    if (wrong == NULL && key->refused != NULL && !accepted(reader->config))
        wrong = key->refused;
    if (key->of_node)
        return wrong;
    if (wrong != NULL) { /* so that the next keys are judged without it */
        *service = before;
        reader->config->interface_count = interfaces;
    }
    service->advertises |= strncmp(key->name, "advertise-", 10) == 0;
    service->identification |= strcmp(key->name, "identification") == 0;
    return wrong;
}

/* All but the router lists, which alone are loaded again, in one number (FNV-1a). */
static void mix(struct reader *reader, const char *text) {
    for (size_t i = 0; i <= strlen(text); i++)
        reader->config->rest = (reader->config->rest ^ (uint8_t)text[i]) * 0x100000001B3;
}

static void read_key(struct reader *reader, const char *name, char *value) {
    reader->key = name;
    if (strcmp(name, "router") != 0) {
        mix(reader, name);
        mix(reader, value);
    }
    for (size_t i = 0; i < sizeof keys / sizeof *keys; i++)
        if (strcmp(keys[i].name, name) == 0) {
            const char *wrong = *value == 0 ? "has no value" : take(reader, &keys[i], value);
            char said[256];
            snprintf(said, sizeof said, "%s%s%s", reader->place.file != NULL ? name : "", reader->place.file != NULL ? ": " : "",
                     wrong != NULL ? wrong : "");
            if (wrong != NULL)
                complain(reader, reader->place, said);
            return;
        }
    complain(reader, reader->place, "no such key");
}

static void read_line(struct reader *reader, char *line) {
    static const char blank[] = " \t\r\n";
    line[strcspn(line, "#")] = 0;
    char *name = strtok(line, blank), *value = strtok(NULL, blank);
    if (name != NULL && strtok(NULL, blank) != NULL)
        complain(reader, reader->place, "more than a key and its value");
    else if (name != NULL)
        read_key(reader, name, value != NULL ? value : name + strlen(name));
}

static void read_file(struct reader *reader, const char *name) {
    FILE *file = fopen(name, "r");
    char *line = NULL;
    size_t room = 0;
    reader->place = (struct place){name, 0};
    while (file != NULL && getline(&line, &room, file) >= 0) {
        reader->place.line++;
        read_line(reader, line);
    }
    if (file == NULL || ferror(file)) {
        fprintf(stderr, "bogtrumpetd: %s: %s\n", name, strerror(errno));
        reader->wrong = true;
    }
    free(line);
    if (file != NULL)
        fclose(file);
    reader->place = (struct place){NULL, 0};
}

/* `--KEY VALUE` or `--KEY=VALUE`; gives the last word that it took. */
static char **read_option(struct reader *reader, char **words) {
    char name[64] = "", *value = NULL, *equals = strchr(*words, '=');
    if (strncmp(*words, "--", 2) == 0)
        snprintf(name, sizeof name, "%.*s", equals != NULL ? (int)(equals - *words - 2) : INT_MAX, *words + 2);
    if (strcmp(*words, "--check") == 0) {
        reader->config->check = true;
        return words;
    }
    /* A copy: keys write into their value, and the options are read again at a reload. */
    value = strdup(equals != NULL ? equals + 1 : words[1] != NULL ? *++words : "");
    if (strcmp(name, "config") == 0 && value != NULL)
        read_file(reader, equals != NULL ? equals + 1 : *words);
    else if (value != NULL)
        read_key(reader, *name != 0 ? name : *words, value);
    free(value);
    return words;
}

bool config_read(struct config *config, char **options) {
    struct reader reader = {.config = config};
    *config = (struct config){0};
    for (char **words = options; *words != NULL; words++)
        words = read_option(&reader, words);
    if (config->service_count == 0) {
        fprintf(stderr, "bogtrumpetd: no service: neither a file nor an option has the key tun\n");
        return false;
    }
    for (size_t i = 0; i < config->service_count; i++)
        if (!reader.wrong && config->services[i].settings.locator_count == 0) {
            reader.key = "tun";
            complain(&reader, config->services[i].place, "a service without a locator");
        }
    return !reader.wrong;
}
