#include "tap.h"

#include <errno.h>
#include <fcntl.h>
#include <linux/if.h>
#include <linux/if_arp.h>
#include <linux/if_ether.h>
#include <linux/if_tun.h>
#include <string.h>
#include <sys/ioctl.h>
#include <sys/socket.h>
#include <unistd.h>

#include "clock.h"
#include "sockets.h"

enum { FRAMES_A_TURN = 64, LONGEST_FRAME = 65536 + 64 };
#define JOINS_AFTER SECOND

static uint8_t frame[LONGEST_FRAME];

/* ---- the interface ---- */

static bool set_up(int any, const char *name, const uint8_t address[6])
{
    struct ifreq request = {0};
    strncpy(request.ifr_name, name, IFNAMSIZ - 1);
    request.ifr_hwaddr.sa_family = ARPHRD_ETHER;
    memcpy(request.ifr_hwaddr.sa_data, address, 6);
    if (ioctl(any, SIOCSIFHWADDR, &request) < 0 || ioctl(any, SIOCGIFFLAGS, &request) < 0)
        return false;
    request.ifr_flags |= IFF_UP;
    return ioctl(any, SIOCSIFFLAGS, &request) == 0;
}

static void show_carrier(struct tap *tap, bool has_carrier)
{
    const int carrier = has_carrier;
    ioctl(tap->file, TUNSETCARRIER, &carrier);
    tap->has_carrier = has_carrier;
}

static bool is_a_ports(const uint8_t address[6], const struct port *ports, uint32_t count)
{
    for (uint32_t port = 1; port <= count; port++)
        if (memcmp(ports[port].link.address, address, 6) == 0)
            return true;
    return false;
}

/* What is sent to the trunk comes in on its ports, and is for this machine there too if it has a port's address: then it would come twice. */
static void make_address(uint8_t address[6], const uint8_t system[6], const struct port *ports, uint32_t count)
{
    memcpy(address, system, 6);
    address[0] |= 0x02; /* not given by a maker */
    do
        address[0] = (uint8_t)(address[0] + 4); /* one of 64, more than there are ports */
    while (is_a_ports(address, ports, count));
}

bool tap_open(struct tap *tap, const char *name, const uint8_t system[6], const struct port *ports, uint32_t count, struct text *trouble)
{
    struct ifreq request = {.ifr_flags = IFF_TAP | IFF_NO_PI};
    uint8_t address[6];
    make_address(address, system, ports, count);
    strncpy(request.ifr_name, name, IFNAMSIZ - 1);
    tap->file = open("/dev/net/tun", O_RDWR | O_NONBLOCK | O_CLOEXEC);
    const int any = socket(AF_INET, SOCK_DGRAM | SOCK_CLOEXEC, 0);
    const bool made = tap->file >= 0 && any >= 0 && ioctl(tap->file, TUNSETIFF, &request) == 0 && set_up(any, name, address);
    if (!made)
        text_add(trouble, "--tap %s: %s", name, strerror(errno));
    if (any >= 0)
        close(any);
    if (made)
        show_carrier(tap, false);
    return made;
}

static void tap_close(struct tap *tap)
{
    close(tap->file);
    tap->file = -1;
}

/* ---- which trunk, and how it is programmed ---- */

static int size_of(uint32_t set)
{
    return __builtin_popcount(set);
}

/* It stays with its ports while one of them distributes, whatever the trunk's number has become; otherwise the trunk with the most. */
void tap_follow(struct tap *tap, uint32_t trunks, const uint32_t *collect, const uint32_t *distribute)
{
    uint32_t best = 0;
    for (uint32_t trunk = 1; trunk <= trunks; trunk++) {
        if ((distribute[trunk] & tap->distributing) != 0) {
            tap->trunk = trunk;
            return;
        }
        if (best == 0 || size_of(distribute[trunk]) > size_of(distribute[best])
            || (size_of(distribute[trunk]) == size_of(distribute[best]) && size_of(collect[trunk]) > size_of(collect[best])))
            best = trunk;
    }
    tap->trunk = best;
}

void tap_collect(struct tap *tap, const struct port *ports, uint32_t count, uint32_t set)
{
    for (uint32_t port = 1; port <= count; port++)
        if (((set ^ tap->collecting) & bit_of(port)) != 0 && ports[port].traffic >= 0)
            socket_let_hear(ports[port].traffic, (set & bit_of(port)) != 0);
    tap->collecting = set;
}

static void send_on(struct tap *tap, uint32_t set)
{
    tap->distributing = set;
    if (tap->has_carrier != (set != 0))
        show_carrier(tap, set != 0);
}

void tap_send_on_none_but(struct tap *tap, uint32_t set)
{
    send_on(tap, tap->distributing & set);
}

/* A neighbour may say that it collects before it does: Open vSwitch drops what comes by then. So while others carry, a port that joins them can wait. */
void tap_distribute(struct tap *tap, uint32_t set)
{
    const int64_t time = now();
    uint32_t ready = 0;
    for (uint32_t port = 1; port <= PORTS; port++) {
        if ((set & bit_of(port)) == 0)
            tap->joined[port] = 0;
        else if (tap->joined[port] == 0)
            tap->joined[port] = time;
        if (tap->joined[port] != 0 && time - tap->joined[port] >= JOINS_AFTER)
            ready |= bit_of(port);
    }
    send_on(tap, (tap->distributing & set) == 0 ? set : ready | (tap->distributing & set));
}

/* ---- conversations ---- */

struct hash {
    uint32_t value;
};

static void mix(struct hash *hash, const uint8_t *octets, size_t length)
{
    for (size_t i = 0; i < length; i++)
        hash->value = (hash->value ^ octets[i]) * UINT32_C(16777619);
}

/* Addresses and ports of IPv4 and IPv6; of a fragment the addresses alone, since only the first has ports. */
static void mix_packet(struct hash *hash, uint16_t type, const uint8_t *packet, size_t length)
{
    if (type == ETH_P_IP && length >= 20) {
        const size_t header = 4 * (size_t)(packet[0] & 15);
        mix(hash, packet + 12, 8);
        const bool is_fragment = ((packet[6] & 0x3f) | packet[7]) != 0;
        if (!is_fragment && (packet[9] == 6 || packet[9] == 17) && header >= 20 && length >= header + 4)
            mix(hash, packet + header, 4);
    } else if (type == ETH_P_IPV6 && length >= 40) {
        mix(hash, packet + 8, 32);
        if ((packet[6] == 6 || packet[6] == 17) && length >= 44)
            mix(hash, packet + 40, 4);
    }
}

static uint32_t conversation_of(const uint8_t *octets, size_t length)
{
    struct hash hash = {UINT32_C(2166136261)};
    if (length >= ETH_HLEN) {
        mix(&hash, octets, 2 * ETH_ALEN);
        mix_packet(&hash, (uint16_t)(octets[12] << 8 | octets[13]), octets + ETH_HLEN, length - ETH_HLEN);
    }
    return hash.value;
}

/* Each port bids for the conversation, and the highest bid has it: so a port that leaves or joins moves its own conversations and no others. */
uint32_t tap_port_of(const uint8_t *octets, size_t length, uint32_t set)
{
    const uint32_t conversation = conversation_of(octets, length);
    uint32_t best = 0, highest = 0;
    for (uint32_t port = 1; set != 0; port++, set >>= 1) {
        uint32_t bid = (conversation ^ port * UINT32_C(0x9e3779b9)) * UINT32_C(0x85ebca6b);
        bid = (bid ^ bid >> 15) * UINT32_C(0xc2b2ae35);
        bid ^= bid >> 13;
        if ((set & 1) != 0 && (best == 0 || bid > highest)) {
            best = port;
            highest = bid;
        }
    }
    return best;
}

/* ---- frames ---- */

void tap_take_in(struct tap *tap, const struct port *ports, uint32_t port)
{
    for (int frames = 0; frames < FRAMES_A_TURN; frames++) {
        const size_t length = socket_receive(ports[port].traffic, frame, sizeof frame);
        if (length == 0)
            return;
        if ((tap->collecting & bit_of(port)) != 0 && write(tap->file, frame, length) == (ssize_t)length)
            tap->received++;
    }
}

/* One that cannot be sent is lost, as on any wire: who sent it asks again. */
void tap_send_out(struct tap *tap, const struct port *ports, uint32_t count)
{
    for (uint32_t frames = 0; frames < FRAMES_A_TURN * count; frames++) {
        const ssize_t length = read(tap->file, frame, sizeof frame);
        if (length < 0 && errno != EAGAIN && errno != EINTR)
            tap_close(tap); /* somebody removed the interface */
        if (length <= 0)
            return;
        const uint32_t port = tap->distributing == 0 ? 0 : tap_port_of(frame, (size_t)length, tap->distributing);
        if (port != 0 && ports[port].traffic >= 0 && socket_send(ports[port].traffic, frame, (size_t)length))
            tap->sent++;
        else
            tap->lost++;
    }
}
