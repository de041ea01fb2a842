#include "wires.h"

#include <linux/if.h>
#include <linux/if_link.h>
#include <linux/netlink.h>
#include <linux/pkt_sched.h>
#include <linux/rtnetlink.h>
#include <linux/veth.h>
#include <string.h>
#include <sys/ioctl.h>
#include <sys/socket.h>
#include <unistd.h>

/* ---- a request, built from the front; all of them are short ---- */

struct request {
    _Alignas(struct nlmsghdr) uint8_t octets[512];
    size_t length;
};

static size_t put(struct request *r, const void *octets, size_t length)
{
    const size_t at = r->length;
    memcpy(r->octets + at, octets, length);
    r->length = at + (length + 3) / 4 * 4;
    return at;
}

static struct request request_of(uint16_t type, uint16_t flags)
{
    const struct nlmsghdr header = {.nlmsg_type = type, .nlmsg_flags = NLM_F_REQUEST | NLM_F_ACK | flags, .nlmsg_seq = 1};
    struct request r = {.length = 0};
    put(&r, &header, sizeof header);
    return r;
}

static size_t begin(struct request *r, uint16_t type)
{
    const struct rtattr attribute = {.rta_type = type};
    return put(r, &attribute, sizeof attribute);
}

static void end(struct request *r, size_t at, size_t unpadded)
{
    ((struct rtattr *)(r->octets + at))->rta_len = (uint16_t)(unpadded - at);
}

static void put_attribute(struct request *r, uint16_t type, const void *value, size_t length)
{
    const size_t at = begin(r, type);
    const size_t unpadded = r->length + length;
    put(r, value, length);
    end(r, at, unpadded);
}

static void put_string(struct request *r, uint16_t type, const char *string)
{
    put_attribute(r, type, string, strlen(string) + 1);
}

/* Sends it, and waits for the kernel's word. */
static bool is_done(int s, struct request *r)
{
    struct {
        struct nlmsghdr header;
        struct nlmsgerr word;
        uint8_t rest[512];
    } answer;
    ((struct nlmsghdr *)r->octets)->nlmsg_len = (uint32_t)r->length;
    if (send(s, r->octets, r->length, 0) < 0)
        return false;
    const ssize_t length = recv(s, &answer, sizeof answer, 0);
    return length >= (ssize_t)(sizeof answer.header + sizeof answer.word) && answer.header.nlmsg_type == NLMSG_ERROR && answer.word.error == 0;
}

static int index_of(int s, const char *name)
{
    struct ifreq request = {0};
    strncpy(request.ifr_name, name, IFNAMSIZ - 1);
    return ioctl(s, SIOCGIFINDEX, &request) < 0 ? 0 : request.ifr_ifindex;
}

/* ---- what may happen ---- */

int wires_open(void)
{
    return socket(AF_NETLINK, SOCK_RAW | SOCK_CLOEXEC, NETLINK_ROUTE);
}

static void put_end_of_wire(struct request *r, const char *name, const uint8_t address[6])
{
    const struct ifinfomsg any = {.ifi_family = AF_UNSPEC};
    put(r, &any, sizeof any);
    put_string(r, IFLA_IFNAME, name);
    put_attribute(r, IFLA_ADDRESS, address, 6);
}

bool wires_join(int s, const char *a, const uint8_t address_a[6], const char *b, const uint8_t address_b[6])
{
    struct request r = request_of(RTM_NEWLINK, NLM_F_CREATE | NLM_F_EXCL);
    put_end_of_wire(&r, a, address_a);
    const size_t info = begin(&r, IFLA_LINKINFO);
    put_string(&r, IFLA_INFO_KIND, "veth");
    const size_t data = begin(&r, IFLA_INFO_DATA);
    const size_t peer = begin(&r, VETH_INFO_PEER);
    put_end_of_wire(&r, b, address_b);
    end(&r, peer, r.length);
    end(&r, data, r.length);
    end(&r, info, r.length);
    return is_done(s, &r);
}

bool wires_switch(int s, const char *name, bool on)
{
    const struct ifinfomsg one = {.ifi_index = index_of(s, name), .ifi_change = IFF_UP, .ifi_flags = on ? IFF_UP : 0};
    struct request r = request_of(RTM_NEWLINK, 0);
    put(&r, &one, sizeof one);
    return one.ifi_index != 0 && is_done(s, &r);
}

bool wires_rename(int s, const char *from, const char *to)
{
    const struct ifinfomsg one = {.ifi_index = index_of(s, from)};
    struct request r = request_of(RTM_NEWLINK, 0);
    put(&r, &one, sizeof one);
    put_string(&r, IFLA_IFNAME, to);
    return one.ifi_index != 0 && is_done(s, &r);
}

/* A queue without room: the sender is told so. */
bool wires_silence(int s, const char *name, bool is_silent)
{
    const struct tcmsg root = {.tcm_ifindex = index_of(s, name), .tcm_parent = TC_H_ROOT};
    const struct tc_fifo_qopt no_room = {.limit = 0};
    struct request r = request_of(is_silent ? RTM_NEWQDISC : RTM_DELQDISC, is_silent ? NLM_F_CREATE | NLM_F_REPLACE : 0);
    put(&r, &root, sizeof root);
    if (is_silent) {
        put_string(&r, TCA_KIND, "pfifo");
        put_attribute(&r, TCA_OPTIONS, &no_room, sizeof no_room);
    }
    return root.tcm_ifindex != 0 && is_done(s, &r);
}
