#include "sockets.h"

#include <arpa/inet.h>
#include <errno.h>
#include <linux/filter.h>
#include <linux/if_ether.h>
#include <linux/if_packet.h>
#include <string.h>
#include <sys/socket.h>
#include <unistd.h>

#ifndef PACKET_IGNORE_OUTGOING
#define PACKET_IGNORE_OUTGOING 23
#endif

enum { QUEUE = 4 << 20, WHOLE = 0x40000 };

/* A frame whose tag the card took off is handed over without it, so the filter asks for what the card kept. */
static struct sock_filter only_slow_protocols[] = {
    BPF_STMT(BPF_LD | BPF_W | BPF_ABS, (uint32_t)(SKF_AD_OFF + SKF_AD_VLAN_TAG_PRESENT)),
    BPF_JUMP(BPF_JMP | BPF_JEQ | BPF_K, 0, 0, 7),
    BPF_STMT(BPF_LD | BPF_W | BPF_ABS, 0),
    BPF_JUMP(BPF_JMP | BPF_JEQ | BPF_K, 0x0180c200, 0, 5),
    BPF_STMT(BPF_LD | BPF_H | BPF_ABS, 4),
    BPF_JUMP(BPF_JMP | BPF_JEQ | BPF_K, 0x0002, 0, 3),
    BPF_STMT(BPF_LD | BPF_H | BPF_ABS, 12),
    BPF_JUMP(BPF_JMP | BPF_JEQ | BPF_K, 0x8809, 0, 1),
    BPF_STMT(BPF_RET | BPF_K, WHOLE),
    BPF_STMT(BPF_RET | BPF_K, 0),
};

/* All but 01-80-C2-00-00-00 to 0F, which no bridge forwards. */
static struct sock_filter only_traffic[] = {
    BPF_STMT(BPF_LD | BPF_W | BPF_ABS, 0),
    BPF_JUMP(BPF_JMP | BPF_JEQ | BPF_K, 0x0180c200, 0, 3),
    BPF_STMT(BPF_LD | BPF_H | BPF_ABS, 4),
    BPF_JUMP(BPF_JMP | BPF_JGE | BPF_K, 0x0010, 1, 0),
    BPF_STMT(BPF_RET | BPF_K, 0),
    BPF_STMT(BPF_RET | BPF_K, WHOLE),
};

static struct sock_filter nothing[] = {BPF_STMT(BPF_RET | BPF_K, 0)};

static bool filter_by(int s, struct sock_filter *steps, size_t size)
{
    const struct sock_fprog program = {.len = (uint16_t)(size / sizeof *steps), .filter = steps};
    return setsockopt(s, SOL_SOCKET, SO_ATTACH_FILTER, &program, sizeof program) == 0;
}

static bool turn_on(int s, int level, int option)
{
    const int on = 1;
    return setsockopt(s, level, option, &on, sizeof on) == 0;
}

/* as many as the machine allows */
static void lengthen_queue(int s)
{
    const int octets = QUEUE;
    if (setsockopt(s, SOL_SOCKET, SO_RCVBUFFORCE, &octets, sizeof octets) < 0)
        setsockopt(s, SOL_SOCKET, SO_RCVBUF, &octets, sizeof octets);
}

/* The filter stands before the socket is bound, so that nothing else ever gets in. */
static int open_on(int interface, struct sock_filter *steps, size_t size, const struct packet_mreq *membership)
{
    const struct sockaddr_ll here = {.sll_family = AF_PACKET, .sll_protocol = htons(ETH_P_ALL), .sll_ifindex = interface};
    const int s = socket(AF_PACKET, SOCK_RAW | SOCK_CLOEXEC | SOCK_NONBLOCK, 0);
    if (s < 0)
        return -1;
    lengthen_queue(s);
    turn_on(s, SOL_PACKET, PACKET_IGNORE_OUTGOING);
    if (!filter_by(s, steps, size) || !turn_on(s, SOL_PACKET, PACKET_AUXDATA)
        || setsockopt(s, SOL_PACKET, PACKET_ADD_MEMBERSHIP, membership, sizeof *membership) < 0
        || bind(s, (const struct sockaddr *)&here, sizeof here) < 0) {
        const int trouble = errno;
        close(s);
        errno = trouble;
        return -1;
    }
    return s;
}

int socket_for_lacp(int interface)
{
    const struct packet_mreq group = {
        .mr_ifindex = interface, .mr_type = PACKET_MR_MULTICAST, .mr_alen = 6, .mr_address = {0x01, 0x80, 0xc2, 0x00, 0x00, 0x02}};
    return open_on(interface, only_slow_protocols, sizeof only_slow_protocols, &group);
}

int socket_for_traffic(int interface)
{
    const struct packet_mreq all = {.mr_ifindex = interface, .mr_type = PACKET_MR_PROMISC};
    return open_on(interface, nothing, sizeof nothing, &all);
}

void socket_let_hear(int s, bool lets)
{
    if (lets)
        filter_by(s, only_traffic, sizeof only_traffic);
    else
        filter_by(s, nothing, sizeof nothing);
}

/* What the card kept of a tag. */
static bool tag_of(struct msghdr *message, uint16_t tag[2])
{
    for (struct cmsghdr *c = CMSG_FIRSTHDR(message); c != NULL; c = CMSG_NXTHDR(message, c)) {
        struct tpacket_auxdata kept;
        if (c->cmsg_level != SOL_PACKET || c->cmsg_type != PACKET_AUXDATA || c->cmsg_len < CMSG_LEN(sizeof kept))
            continue;
        memcpy(&kept, CMSG_DATA(c), sizeof kept);
        tag[0] = htons((kept.tp_status & TP_STATUS_VLAN_TPID_VALID) != 0 ? kept.tp_vlan_tpid : ETH_P_8021Q);
        tag[1] = htons(kept.tp_vlan_tci);
        return (kept.tp_status & TP_STATUS_VLAN_VALID) != 0;
    }
    return false;
}

size_t socket_receive(int s, uint8_t *frame, size_t size)
{
    uint16_t tag[2];
    uint8_t kept[CMSG_SPACE(sizeof(struct tpacket_auxdata))] __attribute__((aligned(8)));
    struct iovec octets = {.iov_base = frame, .iov_len = size - sizeof tag};
    struct msghdr message = {.msg_iov = &octets, .msg_iovlen = 1, .msg_control = kept, .msg_controllen = sizeof kept};
    const ssize_t length = recvmsg(s, &message, 0);
    if (length <= 0)
        return 0; /* nothing now; or the link has just fallen, which is told of elsewhere */
    if (length < 2 * ETH_ALEN || !tag_of(&message, tag))
        return (size_t)length;
    memmove(frame + 2 * ETH_ALEN + sizeof tag, frame + 2 * ETH_ALEN, (size_t)length - 2 * ETH_ALEN);
    memcpy(frame + 2 * ETH_ALEN, tag, sizeof tag);
    return (size_t)length + sizeof tag;
}

bool socket_send(int s, const uint8_t *frame, size_t length)
{
    const ssize_t sent = send(s, frame, length, 0);
    return sent == (ssize_t)length;
}

uint32_t socket_lost(int s)
{
    struct tpacket_stats counted = {0};
    socklen_t size = sizeof counted;
    return getsockopt(s, SOL_PACKET, PACKET_STATISTICS, &counted, &size) == 0 ? counted.tp_drops : 0;
}
