/* The program: options, the loop, signals. NOT PROVED. */
#include "bogtrumpetd.h"

#include <errno.h>
#include <linux/if_packet.h>
#include <netinet/in.h>
#include <poll.h>
#include <signal.h>
#include <stdlib.h>
#include <string.h>
#include <sys/random.h>
#include <sys/signalfd.h>
#include <sys/socket.h>
#include <unistd.h>

#define BURST 64         /* packets that one place hands over before the others have their turn */
#define COUNTERS_AGE 10  /* seconds after which the files of counters are written anew */

static struct host host;
static uint8_t bytes[LONGEST];

static const char help[] =
    "bogtrumpetd --config FILE | --tun NAME --locator ADDRESS%INTERFACE [--KEY VALUE ...]\n"
    "An ISATAP tunnel end, or two: bogtrumpetd(8); the keys: bogtrumpetd.conf(5).\n"
    "  --check    reads and checks the configuration, and ends\n"
    "  --version  the library's version, and ends\n";

/* Whether nothing is left to be read. A read that fails otherwise is said. */
static bool nothing_left(ssize_t length, const char *what) {
    if (length < 0 && errno != EAGAIN)
        note("%s: a read failed: %s", what, strerror(errno));
    return length < 0;
}

static void read_device(struct service *service) {
    for (int turn = 0; turn < BURST; turn++) {
        ssize_t length = read(service->tun, bytes, sizeof bytes);
        if (length < 0 && errno == EAGAIN)
            return;
        if (length < 0) /* it was removed: who watches the program starts it again */
            end("%s: the device", service->config->tun);
        take_packet(&host, service, bytes, (size_t)length);
    }
}

/* What the kernel says beside a datagram: where it arrived, and whether the kernel joined it. */
static unsigned arrival(struct msghdr *message, bool *joined) {
    unsigned index = 0;
    *joined = false;
    for (struct cmsghdr *part = CMSG_FIRSTHDR(message); part != NULL; part = CMSG_NXTHDR(message, part)) {
        struct in_pktinfo where;
        if (part->cmsg_level == IPPROTO_IP && part->cmsg_type == IP_PKTINFO) {
            memcpy(&where, CMSG_DATA(part), sizeof where);
            index = (unsigned)where.ipi_ifindex;
        }
        *joined |= part->cmsg_level == IPPROTO_IP && part->cmsg_type == IP_RECVFRAGSIZE;
    }
    return index;
}

static void read_tunnel(void) {
    for (int turn = 0; turn < BURST; turn++) {
        union {
            struct cmsghdr aligned;
            uint8_t bytes[256];
        } control;
        struct iovec place = {bytes, sizeof bytes};
        struct msghdr message = {.msg_iov = &place, .msg_iovlen = 1, .msg_control = &control, .msg_controllen = sizeof control};
        ssize_t length = recvmsg(host.sockets.tunnel, &message, 0);
        bool joined;
        if (nothing_left(length, "datagrams"))
            return;
        unsigned index = arrival(&message, &joined);
        take_datagram(&host, bytes, (size_t)length, index, joined);
    }
}

static void read_pieces(void) {
    for (int turn = 0; turn < BURST; turn++) {
        struct sockaddr_ll from = {0};
        socklen_t room = sizeof from;
        ssize_t length = recvfrom(host.sockets.pieces, bytes, sizeof bytes, 0, (struct sockaddr *)&from, &room);
        if (nothing_left(length, "pieces"))
            return;
        take_datagram(&host, bytes, (size_t)length, (unsigned)from.sll_ifindex, false);
    }
}

static void read_reports(void) {
    for (int turn = 0; turn < BURST; turn++) {
        ssize_t length = recv(host.sockets.icmp, bytes, sizeof bytes, 0);
        if (nothing_left(length, "size reports"))
            return;
        take_report(&host, bytes, (size_t)length);
    }
}

static void load_routers(char **options) {
    static struct config again;
    if (!config_read(&again, options)) {
        note("the configuration is not loaded: all stays as it was");
        return;
    }
    if (again.rest != host.config.rest)
        note("more than the router lists changed: that takes a restart");
    replace_routers(&host, &again);
}

/* False where the program is to end. */
static bool read_signal(int signals, char **options) {
    struct signalfd_siginfo signal;
    if (read(signals, &signal, sizeof signal) != sizeof signal)
        return true;
    if (signal.ssi_signo == SIGHUP)
        load_routers(options);
    else if (signal.ssi_signo == SIGUSR1) {
        counters_say(&host);
        counters_files(&host);
    }
    return signal.ssi_signo == SIGHUP || signal.ssi_signo == SIGUSR1;
}

static int open_signals(void) {
    sigset_t set;
    sigemptyset(&set);
    sigaddset(&set, SIGHUP);
    sigaddset(&set, SIGUSR1);
    sigaddset(&set, SIGTERM);
    sigaddset(&set, SIGINT);
    sigprocmask(SIG_BLOCK, &set, NULL);
    int signals = signalfd(-1, &set, SFD_NONBLOCK | SFD_CLOEXEC);
    if (signals < 0)
        end("signals");
    return signals;
}

static void carry(int signals, char **options) {
    enum { SIGNALS, TUNNEL, PIECES, REPORTS, DEVICES };
    struct pollfd places[DEVICES + SERVICES] = {
        {.fd = signals}, {.fd = host.sockets.tunnel}, {.fd = host.sockets.pieces}, {.fd = host.sockets.icmp}};
    size_t count = host.config.service_count;
    for (size_t i = 0; i < count; i++)
        places[DEVICES + i].fd = host.services[i].tun;
    for (size_t i = 0; i < DEVICES + count; i++)
        places[i].events = POLLIN;
    uint32_t written = now();
    for (bool on = true; on;) {
        ask_routers(&host);
        if (poll(places, (nfds_t)(DEVICES + count), 1000) < 0 && errno != EINTR)
            end("poll");
        if (places[TUNNEL].revents != 0)
            read_tunnel();
        if (places[PIECES].revents != 0)
            read_pieces();
        if (places[REPORTS].revents != 0)
            read_reports();
        for (size_t i = 0; i < count; i++)
            if (places[DEVICES + i].revents != 0)
                read_device(&host.services[i]);
        if (now() - written >= COUNTERS_AGE) {
            counters_files(&host);
            written = now();
        }
        on = !(places[SIGNALS].revents & POLLIN) || read_signal(signals, options);
    }
}

/* Settings, and of them the node. Two daemons that started at once would number their datagrams alike. */
static void set_up(void) {
    struct config *config = &host.config;
    for (size_t i = 0; i < config->service_count; i++) {
        struct bogtrumpet_settings *settings = &config->services[i].settings;
        if (!config->services[i].identification && getrandom(&settings->identification, sizeof settings->identification, 0) < 0)
            end("a random number");
        struct service *service = &host.services[i];
        service->config = &config->services[i];
        service->number = (uint8_t)i;
        service->prefixes.count = settings->prefix_count;
        memcpy(service->prefixes.bytes, settings->prefixes, sizeof service->prefixes.bytes);
        service->tun = open_device(service->config);
    }
    uint8_t number = config->service_count == 1
                         ? bogtrumpet_new(&host.node, config->services[0].settings)
                         : bogtrumpet_new_pair(&host.node, config->services[0].settings, config->services[1].settings);
    errno = EINVAL;
    if (number != BOGTRUMPET_OK)
        end("%s", bogtrumpet_number_text(number));
}

int main(int count, char **words) {
    char **options = count > 0 ? words + 1 : words;
    for (char **word = options; *word != NULL; word++)
        if (strcmp(*word, "--help") == 0 || strcmp(*word, "--version") == 0) {
            fputs((*word)[2] == 'h' ? help : "bogtrumpetd " BOGTRUMPET_VERSION "\n", stdout);
            return 0;
        }
    if (!config_read(&host.config, options))
        return 2;
    if (host.config.check)
        return 0;
    host.started = now();
    signal(SIGPIPE, SIG_IGN); /* of who read the log */
    int signals = open_signals();
    open_sockets(&host.sockets);
    set_up();
    for (size_t i = 0; i < host.config.interface_count; i++)
        stop_joining_of_segments(host.config.interfaces[i]);
    drop_privileges(host.config.user);
    note("version " BOGTRUMPET_VERSION ", %zu services", host.config.service_count);
    carry(signals, options);
    counters_files(&host);
    note("ended by a signal");
    return 0;
}
