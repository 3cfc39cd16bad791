/* What the guest's checks need and no package has: a TCP transfer, and datagrams whose inner and outer source are
 * chosen freely.
 *
 *   probe take ADDRESS PORT > FILE      one connection, read to its end
 *   probe give ADDRESS PORT < FILE      connects and writes
 *   probe wrap FROM TO SOURCE DESTINATION COUNT
 *                                       COUNT IPv4 datagrams FROM, TO of protocol 41, each with an ICMPv6 echo request
 *                                       SOURCE, DESTINATION
 *
 * A link-local ADDRESS is written with its interface, as in fe80::1%is0. Status 0 where all was done. */
#define _GNU_SOURCE
#include <arpa/inet.h>
#include <net/if.h>
#include <netinet/in.h>
#include <stdint.h>
#include <stdio.h>
#include <stdlib.h>
#include <string.h>
#include <sys/socket.h>
#include <unistd.h>

static void fail(const char *what) {
    perror(what);
    exit(1);
}

static struct sockaddr_in6 place(const char *text, const char *port) {
    struct sockaddr_in6 at = {.sin6_family = AF_INET6, .sin6_port = htons((uint16_t)atoi(port))};
    char address[64];
    snprintf(address, sizeof address, "%s", text);
    char *interface = strchr(address, '%');
    if (interface) {
        *interface++ = 0;
        at.sin6_scope_id = if_nametoindex(interface);
    }
    if (inet_pton(AF_INET6, address, &at.sin6_addr) != 1) {
        fprintf(stderr, "probe: %s is no address\n", text);
        exit(2);
    }
    return at;
}

static void copy(int from, int to) {
    static char bytes[65536];
    ssize_t n;
    while ((n = read(from, bytes, sizeof bytes)) > 0)
        for (ssize_t done = 0; done < n;) {
            ssize_t w = write(to, bytes + done, (size_t)(n - done));
            if (w <= 0) fail("write");
            done += w;
        }
    if (n < 0) fail("read");
}

static void take(const char *address, const char *port) {
    struct sockaddr_in6 at = place(address, port);
    int one = 1, s = socket(AF_INET6, SOCK_STREAM, 0);
    if (s < 0 || setsockopt(s, SOL_SOCKET, SO_REUSEADDR, &one, sizeof one)) fail("socket");
    if (bind(s, (struct sockaddr *)&at, sizeof at) || listen(s, 1)) fail("listen");
    int c = accept(s, NULL, NULL);
    if (c < 0) fail("accept");
    copy(c, 1);
}

static void give(const char *address, const char *port) {
    struct sockaddr_in6 at = place(address, port);
    int s = socket(AF_INET6, SOCK_STREAM, 0);
    if (s < 0) fail("socket");
    if (connect(s, (struct sockaddr *)&at, sizeof at)) fail("connect");
    copy(0, s);
    if (shutdown(s, SHUT_WR)) fail("shutdown");
    char end;
    if (read(s, &end, 1) != 0) fail("the other side's end"); /* it has read all */
}

static uint32_t sum(uint32_t total, const uint8_t *bytes, size_t length) {
    for (size_t i = 0; i + 1 < length; i += 2) total += (uint32_t)(bytes[i] << 8 | bytes[i + 1]);
    return total;
}

static void wrap(char **words) {
    enum { OUTER = 20, INNER = 40, MESSAGE = 16 };
    uint8_t d[OUTER + INNER + MESSAGE] = {0x45, 0, 0, sizeof d, 0, 0, 0, 0, 64, 41};
    struct sockaddr_in to = {.sin_family = AF_INET};
    uint8_t *p = d + OUTER, *m = p + INNER;
    if (inet_pton(AF_INET, words[0], d + 12) != 1 || inet_pton(AF_INET, words[1], d + 16) != 1 ||
        inet_pton(AF_INET6, words[2], p + 8) != 1 || inet_pton(AF_INET6, words[3], p + 24) != 1) {
        fprintf(stderr, "probe: four addresses, two of IPv4 and two of IPv6\n");
        exit(2);
    }
    memcpy(&to.sin_addr, d + 16, 4);
    p[0] = 0x60;
    p[5] = MESSAGE;
    p[6] = 58;
    p[7] = 64;
    m[0] = 128;
    int s = socket(AF_INET, SOCK_RAW, IPPROTO_RAW); /* the kernel fills in identification and checksum */
    if (s < 0) fail("socket");
    for (int i = 0; i < atoi(words[4]); i++) {
        m[2] = m[3] = 0;
        m[7] = (uint8_t)i;
        uint32_t total = sum(sum(MESSAGE + 58, p + 8, 32), m, MESSAGE);
        while (total >> 16) total = (total & 0xffff) + (total >> 16);
        m[2] = (uint8_t)(~total >> 8);
        m[3] = (uint8_t)~total;
        if (sendto(s, d, sizeof d, 0, (struct sockaddr *)&to, sizeof to) != (ssize_t)sizeof d) fail("sendto");
    }
}

int main(int count, char **words) {
    if (count == 4 && !strcmp(words[1], "take")) take(words[2], words[3]);
    else if (count == 4 && !strcmp(words[1], "give")) give(words[2], words[3]);
    else if (count == 7 && !strcmp(words[1], "wrap")) wrap(words + 2);
    else {
        fprintf(stderr, "usage: probe take|give ADDRESS PORT, probe wrap FROM TO SOURCE DESTINATION COUNT\n");
        return 2;
    }
    return 0;
}
