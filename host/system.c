/* Devices, sockets, privileges and the log, as Linux has them. NOT PROVED. */
#include "bogtrumpetd.h"

#include <arpa/inet.h>
#include <errno.h>
#include <fcntl.h>
#include <grp.h>
#include <linux/capability.h>
#include <linux/ethtool.h>
#include <linux/filter.h>
#include <linux/icmp.h>
#include <linux/if_ether.h>
#include <linux/if_packet.h>
#include <linux/if_tun.h>
#include <linux/ipv6.h>
#include <linux/netlink.h>
#include <linux/rtnetlink.h>
#include <linux/sockios.h>
#include <poll.h>
#include <pwd.h>
#include <stdarg.h>
#include <stdlib.h>
#include <string.h>
#include <sys/ioctl.h>
#include <sys/prctl.h>
#include <sys/socket.h>
#include <sys/syscall.h>
#include <sys/uio.h>
#include <time.h>
#include <unistd.h>

#ifndef ICMP_FILTER
#define ICMP_FILTER 1
#endif

/* ---- The log -------------------------------------------------------------------------------------------------------- */

void say(const char *bytes, size_t length) {
    enum { TAKEN_AT_ONCE = 4096 }; /* by a pipe that takes anything */
    while (length > 0 && poll(&(struct pollfd){.fd = 2, .events = POLLOUT}, 1, 0) == 1) {
        ssize_t written = write(2, bytes, length < TAKEN_AT_ONCE ? length : TAKEN_AT_ONCE);
        if (written <= 0)
            return;
        bytes += written;
        length -= (size_t)written;
    }
}

void note(const char *text, ...) {
    static char said[16][512];
    static size_t count;
    static uint32_t second;
    char line[512] = "bogtrumpetd: ";
    size_t front = strlen(line);
    va_list values;
    va_start(values, text);
    vsnprintf(line + front, sizeof line - front - 1, text, values);
    va_end(values);
    strcat(line, "\n");
    if (second != now())
        count = 0;
    second = now();
    for (size_t i = 0; i < count; i++)
        if (strcmp(said[i], line) == 0)
            return;
    if (count == 16)
        return;
    strcpy(said[count++], line);
    say(line, strlen(line));
}

void end(const char *text, ...) {
    int error = errno;
    va_list values;
    va_start(values, text);
    fputs("bogtrumpetd: ", stderr);
    vfprintf(stderr, text, values);
    fprintf(stderr, ": %s\n", strerror(error));
    exit(1);
}

/* ---- The device ----------------------------------------------------------------------------------------------------- */

/* Asks the kernel by netlink, and gives the length of its answer. */
static size_t ask_kernel(const void *question, size_t length, void *answer, size_t room) {
    int kernel = socket(AF_NETLINK, SOCK_RAW | SOCK_CLOEXEC, NETLINK_ROUTE);
    ssize_t read = kernel >= 0 && send(kernel, question, length, 0) >= 0 ? recv(kernel, answer, room, 0) : -1;
    if (kernel >= 0)
        close(kernel);
    return read > 0 ? (size_t)read : 0;
}

/* No link-local address of the kernel's own making: its identifier would not embed the locator. */
static void no_automatic_address(const char *tun) {
    struct {
        struct nlmsghdr head;
        struct ifinfomsg link;
        struct rtattr all, inet6, mode;
        uint8_t value, padding[3];
    } question = {
        .head = {sizeof question, RTM_NEWLINK, NLM_F_REQUEST | NLM_F_ACK, 0, 0},
        .link = {.ifi_index = (int)if_nametoindex(tun)},
        .all = {3 * sizeof(struct rtattr) + 4, IFLA_AF_SPEC},
        .inet6 = {2 * sizeof(struct rtattr) + 4, AF_INET6},
        .mode = {sizeof(struct rtattr) + 1, IFLA_INET6_ADDR_GEN_MODE},
        .value = IN6_ADDR_GEN_MODE_NONE,
    };
    struct {
        struct nlmsghdr head;
        struct nlmsgerr error;
        uint8_t rest[256];
    } answer = {.error = {.error = -EPROTO}};
    size_t length = ask_kernel(&question, sizeof question, &answer, sizeof answer);
    errno = length > 0 ? -answer.error.error : errno;
    if (errno != 0)
        end("%s: no automatic IPv6 address", tun);
}

/* The link-local address of the first locator, the size of the packets that pass at best, and up. */
static void set_device(const char *tun, const struct bogtrumpet_settings *settings) {
    struct ifreq request = {0};
    struct in6_ifreq address = {.ifr6_prefixlen = 64, .ifr6_ifindex = (int)if_nametoindex(tun)};
    struct bogtrumpet_address own = bogtrumpet_link_local(settings->locators[0].address);
    int any = socket(AF_INET6, SOCK_DGRAM | SOCK_CLOEXEC, 0);
    strcpy(request.ifr_name, tun);
    memcpy(&address.ifr6_addr, own.bytes, sizeof own.bytes);
    request.ifr_mtu = settings->link_size >= 1280 + BOGTRUMPET_OUTER_HEADER_LENGTH ? settings->link_size - BOGTRUMPET_OUTER_HEADER_LENGTH : 1280;
    if (any < 0 || ioctl(any, SIOCSIFMTU, &request) < 0)
        end("%s: a packet size of %d", tun, request.ifr_mtu);
    if (ioctl(any, SIOCGIFFLAGS, &request) < 0)
        end("%s: flags", tun);
    request.ifr_flags |= IFF_UP;
    if (ioctl(any, SIOCSIFFLAGS, &request) < 0)
        end("%s: up", tun);
    if (ioctl(any, SIOCSIFADDR, &address) < 0 && errno != EEXIST)
        end("%s: the link-local address", tun);
    /* The kernel puts it in force a little later, and would refuse an advertisement that comes before. */
    struct sockaddr_in6 here = {.sin6_family = AF_INET6, .sin6_addr = address.ifr6_addr, .sin6_scope_id = (uint32_t)address.ifr6_ifindex};
    for (int turn = 0; turn < 200 && bind(any, (struct sockaddr *)&here, sizeof here) < 0; turn++)
        nanosleep(&(struct timespec){.tv_nsec = 10000000}, NULL);
    close(any);
}

int open_device(const struct service_config *service) {
    struct ifreq request = {.ifr_flags = IFF_TUN | IFF_NO_PI};
    int tun = open("/dev/net/tun", O_RDWR | O_NONBLOCK | O_CLOEXEC);
    strcpy(request.ifr_name, service->tun);
    if (tun < 0 || ioctl(tun, TUNSETIFF, &request) < 0)
        end("%s: the device", service->tun);
    no_automatic_address(service->tun);
    set_device(service->tun, &service->settings);
    return tun;
}

/* ---- Sockets -------------------------------------------------------------------------------------------------------- */

static int open_raw(int protocol) {
    int raw = socket(AF_INET, SOCK_RAW | SOCK_NONBLOCK | SOCK_CLOEXEC, protocol);
    if (raw < 0)
        end("a raw socket of protocol %d", protocol);
    return raw;
}

static void set(int socket, int level, int option, int value) {
    if (setsockopt(socket, level, option, &value, sizeof value) < 0)
        end("socket option %d of level %d", option, level);
}

/* Room for what comes while other work is done; the most that the system allows where more is not allowed. */
static void set_room(int socket) {
    int room = 4 << 20;
    if (setsockopt(socket, SOL_SOCKET, SO_RCVBUFFORCE, &room, sizeof room) < 0)
        set(socket, SOL_SOCKET, SO_RCVBUF, room);
}

/* The kernel joins pieces before a raw socket gets them. The library is to do that: a packet socket gets the pieces as they come, those of
   protocol 41 to this machine alone, before the kernel's joining. */
static int open_pieces(void) {
    static struct sock_filter program[] = {
        BPF_STMT(BPF_LD | BPF_B | BPF_ABS, (uint32_t)(SKF_AD_OFF + SKF_AD_PKTTYPE)), /* whom the link's frame is for */
        BPF_JUMP(BPF_JMP | BPF_JEQ | BPF_K, PACKET_HOST, 0, 5),
        BPF_STMT(BPF_LD | BPF_B | BPF_ABS, 9), /* protocol */
        BPF_JUMP(BPF_JMP | BPF_JEQ | BPF_K, IPPROTO_IPV6, 0, 3),
        BPF_STMT(BPF_LD | BPF_H | BPF_ABS, 6), /* more-fragments and offset */
        BPF_JUMP(BPF_JMP | BPF_JSET | BPF_K, 0x3FFF, 0, 1),
        BPF_STMT(BPF_RET | BPF_K, LONGEST),
        BPF_STMT(BPF_RET | BPF_K, 0),
    };
    struct sock_fprog filter = {sizeof program / sizeof *program, program};
    struct sockaddr_ll all = {.sll_family = AF_PACKET, .sll_protocol = htons(ETH_P_IP)};
    int pieces = socket(AF_PACKET, SOCK_DGRAM | SOCK_NONBLOCK | SOCK_CLOEXEC, 0);
    if (pieces < 0 || setsockopt(pieces, SOL_SOCKET, SO_ATTACH_FILTER, &filter, sizeof filter) < 0 ||
        bind(pieces, (struct sockaddr *)&all, sizeof all) < 0)
        end("a packet socket for pieces");
    return pieces;
}

void open_sockets(struct sockets *sockets) {
    struct icmp_filter all_but_unreachable = {~((uint32_t)1 << ICMP_DEST_UNREACH)};
    sockets->tunnel = open_raw(IPPROTO_IPV6);
    sockets->out = open_raw(IPPROTO_RAW); /* the header is handed over, and nothing comes */
    sockets->icmp = open_raw(IPPROTO_ICMP);
    sockets->pieces = open_pieces();
    set(sockets->tunnel, IPPROTO_IP, IP_PKTINFO, 1);
    set(sockets->tunnel, IPPROTO_IP, IP_RECVFRAGSIZE, 1);
    /* Path sizes are the node's: the kernel keeps to its interface's, and cuts what is handed to it without a header. */
    set(sockets->tunnel, IPPROTO_IP, IP_MTU_DISCOVER, IP_PMTUDISC_OMIT);
    set(sockets->out, IPPROTO_IP, IP_MTU_DISCOVER, IP_PMTUDISC_INTERFACE);
    if (setsockopt(sockets->icmp, SOL_RAW, ICMP_FILTER, &all_but_unreachable, sizeof all_but_unreachable) < 0)
        end("a filter for ICMP");
    set_room(sockets->tunnel);
    set_room(sockets->pieces);
    set_room(sockets->icmp);
}

/* An address of a header as the kernel takes it. */
static struct sockaddr_in address_at(const uint8_t *bytes) {
    struct sockaddr_in address = {.sin_family = AF_INET};
    memcpy(&address.sin_addr, bytes, sizeof address.sin_addr);
    return address;
}

/* Hands the bytes over for the tunnel end of the datagram, from its source, by which the kernel may choose the way, and with its TTL. */
static bool put(int socket, const uint8_t *datagram, const uint8_t *bytes, size_t length) {
    struct sockaddr_in to = address_at(datagram + 16);
    struct iovec place = {(void *)(uintptr_t)bytes, length};
    struct in_pktinfo from = {.ipi_spec_dst = address_at(datagram + 12).sin_addr};
    int ttl = datagram[8];
    union {
        struct cmsghdr aligned;
        uint8_t bytes[CMSG_SPACE(sizeof from) + CMSG_SPACE(sizeof ttl)];
    } control = {.bytes = {0}};
    struct msghdr message = {&to, sizeof to, &place, 1, &control, sizeof control, 0};
    struct cmsghdr *part = CMSG_FIRSTHDR(&message);
    *part = (struct cmsghdr){.cmsg_len = CMSG_LEN(sizeof from), .cmsg_level = IPPROTO_IP, .cmsg_type = IP_PKTINFO};
    memcpy(CMSG_DATA(part), &from, sizeof from);
    part = CMSG_NXTHDR(&message, part);
    *part = (struct cmsghdr){.cmsg_len = CMSG_LEN(sizeof ttl), .cmsg_level = IPPROTO_IP, .cmsg_type = IP_TTL};
    memcpy(CMSG_DATA(part), &ttl, sizeof ttl);
    return sendmsg(socket, &message, 0) >= 0;
}

bool put_datagram(const struct sockets *sockets, const uint8_t *datagram, size_t length) {
    return put(sockets->out, datagram, datagram, length);
}

bool put_cut(const struct sockets *sockets, const uint8_t *datagram, size_t length) {
    return put(sockets->tunnel, datagram, datagram + BOGTRUMPET_OUTER_HEADER_LENGTH, length - BOGTRUMPET_OUTER_HEADER_LENGTH);
}

/* The interface that the kernel sends the datagram by, 0 where it has no way. */
static unsigned way_of(const uint8_t *datagram) {
    struct {
        struct nlmsghdr head;
        struct rtmsg route;
        struct rtattr to;
        uint8_t to_address[4];
        struct rtattr from;
        uint8_t from_address[4];
    } question = {
        .head = {sizeof question, RTM_GETROUTE, NLM_F_REQUEST, 0, 0},
        .route = {.rtm_family = AF_INET, .rtm_src_len = 32, .rtm_dst_len = 32},
        .to = {sizeof(struct rtattr) + 4, RTA_DST},
        .from = {sizeof(struct rtattr) + 4, RTA_SRC},
    };
    union {
        struct nlmsghdr head;
        uint8_t bytes[1024];
    } answer;
    memcpy(question.to_address, datagram + 16, 4);
    memcpy(question.from_address, datagram + 12, 4);
    size_t length = ask_kernel(&question, sizeof question, &answer, sizeof answer);
    if (!NLMSG_OK(&answer.head, length) || answer.head.nlmsg_type != RTM_NEWROUTE)
        return 0;
    unsigned index = 0, rest = (unsigned)RTM_PAYLOAD(&answer.head);
    for (struct rtattr *part = RTM_RTA(NLMSG_DATA(&answer.head)); RTA_OK(part, rest); part = RTA_NEXT(part, rest))
        if (part->rta_type == RTA_OIF)
            memcpy(&index, RTA_DATA(part), sizeof index);
    return index;
}

/* The size of the interface, not the kernel's size for the path: what reports say of that, the node judges. */
uint16_t near_link_size(const uint8_t *datagram, size_t length) {
    struct ifreq request = {0};
    int any = socket(AF_INET, SOCK_DGRAM | SOCK_CLOEXEC, 0);
    bool known = if_indextoname(way_of(datagram), request.ifr_name) != NULL && ioctl(any, SIOCGIFMTU, &request) == 0;
    close(any);
    return known && request.ifr_mtu > 0 && (size_t)request.ifr_mtu < length ? (uint16_t)request.ifr_mtu : 0;
}

void stop_joining_of_segments(const char *name) {
    struct ethtool_value value = {.cmd = ETHTOOL_GGRO};
    struct ifreq request = {.ifr_data = (void *)&value};
    int any = socket(AF_INET, SOCK_DGRAM | SOCK_CLOEXEC, 0);
    strcpy(request.ifr_name, name);
    if (if_nametoindex(name) == 0)
        note("%s: there is no such interface now", name);
    else if (ioctl(any, SIOCETHTOOL, &request) == 0 && value.data != 0) {
        value = (struct ethtool_value){.cmd = ETHTOOL_SGRO};
        bool off = ioctl(any, SIOCETHTOOL, &request) == 0;
        note("%s: receive offload (gro) is %s", name, off ? "switched off" : "on, and TCP through the tunnel may break");
    }
    close(any);
}

/* ---- Privileges ----------------------------------------------------------------------------------------------------- */

void drop_privileges(const char *user) {
    struct __user_cap_header_struct head = {_LINUX_CAPABILITY_VERSION_3, 0};
    struct __user_cap_data_struct none[2] = {{0}};
    errno = ENOENT;
    const struct passwd *found = *user != 0 ? getpwnam(user) : NULL;
    if (*user != 0 && found == NULL)
        end("user %s", user);
    if (found != NULL && (setgroups(0, NULL) < 0 || setresgid(found->pw_gid, found->pw_gid, found->pw_gid) < 0 ||
                          setresuid(found->pw_uid, found->pw_uid, found->pw_uid) < 0))
        end("user %s", user);
    if (prctl(PR_SET_NO_NEW_PRIVS, 1, 0, 0, 0) < 0 || syscall(SYS_capset, &head, none) < 0)
        end("privileges");
}
