#include "links.h"

#include <linux/ethtool.h>
#include <linux/if_link.h>
#include <linux/netlink.h>
#include <linux/rtnetlink.h>
#include <linux/sockios.h>
#include <string.h>
#include <sys/ioctl.h>
#include <sys/socket.h>
#include <unistd.h>

/* ---- messages, octet by octet, since none of them has to be whole ---- */

static size_t aligned(size_t length)
{
    return (length + 3) & ~(size_t)3;
}

static void take_attribute(struct notice *notice, unsigned type, const uint8_t *value, size_t length)
{
    if (type == IFLA_IFNAME && length > 0 && length <= IFNAMSIZ && value[length - 1] == 0) {
        memset(notice->name, 0, IFNAMSIZ);
        memcpy(notice->name, value, length);
    } else if (type == IFLA_ADDRESS && length == 6) {
        memcpy(notice->link.address, value, 6);
    } else if (type == IFLA_MASTER && length == sizeof notice->link.master) {
        memcpy(&notice->link.master, value, length);
    }
}

static void take_link(struct notice *notice, const uint8_t *payload, size_t length)
{
    struct ifinfomsg info;
    if (length < sizeof info)
        return;
    memcpy(&info, payload, sizeof info);
    if (info.ifi_family != AF_UNSPEC)
        return; /* what a bridge tells of its port */
    notice->link.index = info.ifi_index;
    notice->link.is_enabled = (info.ifi_flags & IFF_UP) != 0;
    notice->link.is_up = notice->link.is_enabled && (info.ifi_flags & IFF_LOWER_UP) != 0;
    for (size_t at = aligned(sizeof info); at + sizeof(struct rtattr) <= length;) {
        struct rtattr attribute;
        memcpy(&attribute, payload + at, sizeof attribute);
        if (attribute.rta_len < sizeof attribute || attribute.rta_len > length - at)
            return;
        take_attribute(notice, attribute.rta_type & (unsigned)NLA_TYPE_MASK, payload + at + sizeof attribute, attribute.rta_len - sizeof attribute);
        at += aligned(attribute.rta_len);
    }
}

bool links_parse(const uint8_t *octets, size_t length, size_t *at, struct notice *notice)
{
    struct nlmsghdr header;
    memset(notice, 0, sizeof *notice);
    if (*at > length || length - *at < sizeof header)
        return false;
    memcpy(&header, octets + *at, sizeof header);
    if (header.nlmsg_len < sizeof header || header.nlmsg_len > length - *at)
        return false;
    notice->is_broken = (header.nlmsg_flags & NLM_F_DUMP_INTR) != 0;
    if (header.nlmsg_type == NLMSG_DONE) {
        notice->told = TOLD_END;
    } else if (header.nlmsg_type == RTM_NEWLINK || header.nlmsg_type == RTM_DELLINK) {
        take_link(notice, octets + *at + sizeof header, header.nlmsg_len - sizeof header);
        if (notice->link.index > 0)
            notice->told = header.nlmsg_type == RTM_NEWLINK ? TOLD_LINK : TOLD_GONE;
    }
    *at += aligned(header.nlmsg_len);
    return true;
}

/* ---- the kernel ---- */

int links_open(void)
{
    const struct sockaddr_nl changes = {.nl_family = AF_NETLINK, .nl_groups = RTMGRP_LINK};
    const int s = socket(AF_NETLINK, SOCK_RAW | SOCK_CLOEXEC | SOCK_NONBLOCK, NETLINK_ROUTE);
    if (s >= 0 && bind(s, (const struct sockaddr *)&changes, sizeof changes) < 0) {
        close(s);
        return -1;
    }
    return s;
}

void links_ask(int s)
{
    const struct {
        struct nlmsghdr header;
        struct ifinfomsg info;
    } all = {
        .header = {.nlmsg_len = sizeof all, .nlmsg_type = RTM_GETLINK, .nlmsg_flags = NLM_F_REQUEST | NLM_F_DUMP},
        .info = {.ifi_family = AF_UNSPEC},
    };
    send(s, &all, sizeof all, 0); /* one that does not go is asked again, a second later */
}

bool links_has_carrier(int any, const char *name, bool before)
{
    struct ethtool_value carrier = {.cmd = ETHTOOL_GLINK};
    struct ifreq request = {.ifr_data = (void *)&carrier};
    strncpy(request.ifr_name, name, IFNAMSIZ - 1);
    return ioctl(any, SIOCETHTOOL, &request) < 0 ? before : carrier.data != 0;
}

/* Asked with no room for link modes, an interface answers how many words they need, as a negative number; asked again with these, with all. */
void links_read_line(int any, const char *name, struct link *link)
{
    _Alignas(struct ethtool_link_settings) uint8_t octets[sizeof(struct ethtool_link_settings) + 3 * 128 * sizeof(uint32_t)] = {0};
    struct ethtool_link_settings *line = (struct ethtool_link_settings *)octets;
    struct ifreq request = {.ifr_data = (void *)octets};
    strncpy(request.ifr_name, name, IFNAMSIZ - 1);
    link->duplex = DUPLEX_UNKNOWN;
    link->speed = 0;
    line->cmd = ETHTOOL_GLINKSETTINGS;
    if (ioctl(any, SIOCETHTOOL, &request) < 0 || line->link_mode_masks_nwords >= 0)
        return;
    line->cmd = ETHTOOL_GLINKSETTINGS;
    line->link_mode_masks_nwords = (int8_t)-line->link_mode_masks_nwords;
    if (ioctl(any, SIOCETHTOOL, &request) < 0)
        return;
    link->duplex = line->duplex;
    link->speed = line->speed == (uint32_t)SPEED_UNKNOWN ? 0 : line->speed;
}
