#include "pcap.h"

#include <string.h>

enum { SECTION = 0x0a0d0d0a, INTERFACE = 1, PACKET = 6 };                 /* blocks */
enum { END = 0, INTERFACE_NAME = 2, RESOLUTION = 9, FLAGS = 2, ETHERNET = 1 }; /* options, and the kind of link */
enum { NANOSECONDS = 9, WHOLE_FRAMES = 0x40000, LONGEST_NAME = 15 };

/* ---- numbers are as the machine has them: the section's first word tells which way ---- */

static bool put(FILE *file, const void *octets, size_t length)
{
    return fwrite(octets, 1, length, file) == length;
}

static bool put_word(FILE *file, uint32_t word)
{
    return put(file, &word, sizeof word);
}

static bool put_padding(FILE *file, size_t length)
{
    return put(file, "\0\0\0", (4 - length % 4) % 4);
}

static bool put_option(FILE *file, uint16_t code, const void *value, uint16_t length)
{
    return put(file, &code, sizeof code) && put(file, &length, sizeof length) && put(file, value, length) && put_padding(file, length);
}

static uint32_t padded(size_t length)
{
    return (uint32_t)((length + 3) / 4 * 4);
}

/* ---- blocks ---- */

static bool put_section(FILE *file)
{
    const uint32_t length = 28;
    const uint16_t version[2] = {1, 0};
    return put_word(file, SECTION) && put_word(file, length) && put_word(file, 0x1a2b3c4d) && put(file, version, sizeof version)
        && put_word(file, UINT32_MAX) && put_word(file, UINT32_MAX) && put_word(file, length);
}

static bool put_interface(FILE *file, const char *name)
{
    const uint16_t kind[2] = {ETHERNET, 0};
    const uint8_t resolution = NANOSECONDS;
    const size_t of_name = strnlen(name, LONGEST_NAME);
    const uint32_t length = 20 + 4 + padded(of_name) + 8 + 4;
    return put_word(file, INTERFACE) && put_word(file, length) && put(file, kind, sizeof kind) && put_word(file, WHOLE_FRAMES)
        && put_option(file, INTERFACE_NAME, name, (uint16_t)of_name) && put_option(file, RESOLUTION, &resolution, 1)
        && put_option(file, END, "", 0) && put_word(file, length);
}

static bool put_packet(FILE *file, uint32_t interface, uint32_t flags, uint64_t time, const uint8_t *frame, uint32_t size)
{
    const uint32_t length = 32 + padded(size) + 8 + 4;
    return put_word(file, PACKET) && put_word(file, length) && put_word(file, interface) && put_word(file, (uint32_t)(time >> 32))
        && put_word(file, (uint32_t)time) && put_word(file, size) && put_word(file, size) && put(file, frame, size) && put_padding(file, size)
        && put_option(file, FLAGS, &flags, sizeof flags) && put_option(file, END, "", 0) && put_word(file, length);
}

bool pcap_begin(struct pcap *pcap, FILE *file, const char *const *names, unsigned count)
{
    bool goes = put_section(file);
    for (unsigned i = 0; goes && i < count; i++)
        goes = put_interface(file, names[i]);
    pcap->file = goes && fflush(file) == 0 ? file : NULL;
    return pcap->file != NULL;
}

/* One that cannot be written ends the capture, since half a block would make the rest unreadable. */
void pcap_frame(struct pcap *pcap, uint32_t port, enum direction direction, int64_t time, const uint8_t *frame, size_t length)
{
    if (pcap->file == NULL)
        return;
    if (!put_packet(pcap->file, port - 1, direction, (uint64_t)time, frame, (uint32_t)length))
        pcap->file = NULL;
}

void pcap_flush(struct pcap *pcap)
{
    if (pcap->file != NULL && fflush(pcap->file) != 0)
        pcap->file = NULL;
}
