/*
 * flood IF KIND RATE SECONDS [HEX]: sends so many frames of a kind a second to 01-80-C2-00-00-02 on an interface, past its queue, and ends by itself after so
 * many seconds. Then it prints how many went out. The kinds:
 *
 *   random      octets and lengths at random behind 88-09
 *   malformed   LACPDUs of which one block has a wrong length
 *   markers     Markers without fault
 *   forged      LACPDUs without fault, each of another system
 *   repeat      the frame that HEX gives
 *
 * For interfaces of a test's own namespace only.
 */
#define _GNU_SOURCE
#include <linux/if_ether.h>
#include <linux/if_packet.h>
#include <net/if.h>
#include <stdbool.h>
#include <stdint.h>
#include <stdio.h>
#include <stdlib.h>
#include <string.h>
#include <sys/ioctl.h>
#include <sys/socket.h>
#include <time.h>
#include <unistd.h>

enum { BATCH = 64, WHOLE = 124, LONGEST = 1514, MOST_RATE = 1000000, MOST_SECONDS = 60 };

static const uint8_t slow_address[6] = {0x01, 0x80, 0xc2, 0x00, 0x00, 0x02};

struct frame {
    uint8_t octets[LONGEST + 8]; /* room for whole numbers at random */
    size_t length;
};

static uint8_t own_address[6];
static struct frame given;

static void fail(const char *what)
{
    perror(what);
    exit(2);
}

static uint64_t at_random(void)
{
    static uint64_t state = 0x9e3779b97f4a7c15;
    state ^= state << 13;
    state ^= state >> 7;
    state ^= state << 17;
    return state;
}

static double seconds(void)
{
    struct timespec t;
    clock_gettime(CLOCK_MONOTONIC, &t);
    return (double)t.tv_sec + (double)t.tv_nsec / 1e9;
}

/* ---- the kinds ---- */

static void begin(struct frame *frame, size_t length)
{
    memset(frame->octets, 0, length);
    memcpy(frame->octets, slow_address, 6);
    memcpy(frame->octets + 6, own_address, 6);
    frame->octets[12] = 0x88;
    frame->octets[13] = 0x09;
    frame->length = length;
}

static void put(struct frame *frame, size_t place, size_t count)
{
    const uint64_t number = at_random();
    memcpy(frame->octets + place, &number, count);
}

static void random_octets(struct frame *frame)
{
    begin(frame, ETH_HLEN);
    frame->length = ETH_HLEN + at_random() % (LONGEST - ETH_HLEN + 1);
    for (size_t i = ETH_HLEN; i < frame->length; i += 8)
        put(frame, i, 8);
}

/* of a system that no other frame is from */
static void forged(struct frame *frame)
{
    static const uint8_t actor[] = {1, 1, 1, 20, 0x80, 0, 2}, partner[] = {2, 20}, collector[] = {3, 16};
    begin(frame, WHOLE);
    memcpy(frame->octets + 14, actor, sizeof actor);
    put(frame, 21, 5);
    frame->octets[27] = 1;    /* key */
    frame->octets[31] = 1;    /* port */
    frame->octets[32] = 0x07; /* active, short, aggregatable */
    memcpy(frame->octets + 36, partner, sizeof partner);
    memcpy(frame->octets + 56, collector, sizeof collector);
}

static void malformed(struct frame *frame)
{
    static const size_t lengths[] = {17, 37, 57};
    forged(frame);
    frame->octets[lengths[at_random() % 3]] ^= (uint8_t)(1 + at_random() % 255);
}

static void markers(struct frame *frame)
{
    static const uint8_t marker[] = {2, 1, 1, 16, 0, 1};
    begin(frame, WHOLE);
    memcpy(frame->octets + 14, marker, sizeof marker);
    memcpy(frame->octets + 20, own_address, 6);
    put(frame, 26, 4);
}

static void repeat(struct frame *frame)
{
    *frame = given;
}

static const struct kind {
    const char *name;
    void (*write)(struct frame *frame);
} kinds[] = {{"random", random_octets}, {"malformed", malformed}, {"markers", markers}, {"forged", forged}, {"repeat", repeat}};

static const struct kind *kind_of(const char *name)
{
    for (size_t i = 0; i < sizeof kinds / sizeof *kinds; i++)
        if (strcmp(kinds[i].name, name) == 0)
            return &kinds[i];
    return NULL;
}

/* ---- sending ---- */

/* a socket past the queue of this interface, whose address becomes ours */
static int open_on(const char *interface)
{
    const int on = 1, fd = socket(AF_PACKET, SOCK_RAW, 0);
    struct ifreq request = {0};
    struct sockaddr_ll place = {.sll_family = AF_PACKET};
    snprintf(request.ifr_name, sizeof request.ifr_name, "%s", interface);
    if (fd < 0 || ioctl(fd, SIOCGIFHWADDR, &request) < 0)
        fail(interface);
    memcpy(own_address, request.ifr_hwaddr.sa_data, 6);
    place.sll_ifindex = (int)if_nametoindex(interface);
    if (setsockopt(fd, SOL_PACKET, PACKET_QDISC_BYPASS, &on, sizeof on) < 0 || bind(fd, (struct sockaddr *)&place, sizeof place) < 0)
        fail(interface);
    return fd;
}

/* so many new frames, at most BATCH: how many of them went out */
static unsigned send_batch(int fd, const struct kind *kind, unsigned count)
{
    static struct frame frames[BATCH];
    struct mmsghdr messages[BATCH] = {0};
    struct iovec parts[BATCH];
    for (unsigned i = 0; i < count; i++) {
        kind->write(&frames[i]);
        parts[i] = (struct iovec){frames[i].octets, frames[i].length};
        messages[i].msg_hdr.msg_iov = &parts[i];
        messages[i].msg_hdr.msg_iovlen = 1;
    }
    const int went = sendmmsg(fd, messages, count, 0);
    return went < 0 ? 0 : (unsigned)went;
}

/* At each moment no more went out than the rate allows since the start, and never more than a batch at once. */
static unsigned long flood(int fd, const struct kind *kind, double rate, double length)
{
    const struct timespec pause = {.tv_nsec = 200000};
    const double start = seconds();
    unsigned long sent = 0, tried = 0;
    for (double now = start; now < start + length; now = seconds()) {
        const unsigned long due = (unsigned long)((now - start) * rate) - tried;
        if (due == 0) {
            nanosleep(&pause, NULL);
            continue;
        }
        const unsigned count = due < BATCH ? (unsigned)due : BATCH;
        sent += send_batch(fd, kind, count);
        tried += count;
    }
    return sent;
}

static bool read_hex(const char *text)
{
    unsigned octet;
    for (given.length = 0; *text != 0 && given.length < LONGEST; text += 2) {
        if (sscanf(text, "%2x", &octet) != 1 || text[1] == 0)
            return false;
        given.octets[given.length++] = (uint8_t)octet;
    }
    return given.length >= ETH_HLEN;
}

int main(int count, char **words)
{
    const struct kind *kind = count >= 5 ? kind_of(words[2]) : NULL;
    const double rate = kind != NULL ? atof(words[3]) : 0, length = kind != NULL ? atof(words[4]) : 0;
    if (!(rate >= 1 && rate <= MOST_RATE && length > 0 && length <= MOST_SECONDS) || count != (kind->write == repeat ? 6 : 5) ||
        (kind->write == repeat && !read_hex(words[5]))) {
        fprintf(stderr, "usage: flood IF random|malformed|markers|forged|repeat RATE SECONDS [HEX]\n");
        return 2;
    }
    printf("%lu\n", flood(open_on(words[1]), kind, rate, length));
    return 0;
}
