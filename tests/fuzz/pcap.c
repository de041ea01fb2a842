/* Any names and frames as a capture, read back by a reader of its own: every block is whole, and every frame is there with port and direction. */
#include <stdlib.h>
#include <string.h>

#include "pcap.h"

enum { NAMES = 4, LONGEST = 16 };

int LLVMFuzzerTestOneInput(const uint8_t *octets, size_t length);

struct input {
    const uint8_t *at;
    size_t left;
};

static uint8_t next(struct input *in)
{
    if (in->left == 0)
        return 0;
    in->left--;
    return *in->at++;
}

static uint32_t word_at(const char *octets)
{
    uint32_t word;
    memcpy(&word, octets, sizeof word);
    return word;
}

/* The block that begins at `at` is whole; gives its length. */
static size_t check_block(const char *octets, size_t size, size_t at, uint32_t type)
{
    if (size - at < 12 || word_at(octets + at) != type)
        abort();
    const uint32_t length = word_at(octets + at + 4);
    if (length < 12 || length % 4 != 0 || length > size - at || word_at(octets + at + length - 4) != length)
        abort();
    return length;
}

static void check_frame(const char *block, uint32_t port, enum direction direction, const uint8_t *frame, size_t length)
{
    const size_t padded = (length + 3) / 4 * 4;
    if (word_at(block + 8) != port - 1 || word_at(block + 20) != length || word_at(block + 24) != length || memcmp(block + 28, frame, length) != 0
        || word_at(block + 28 + padded) != (UINT32_C(4) << 16 | 2) || word_at(block + 32 + padded) != (uint32_t)direction)
        abort();
}

int LLVMFuzzerTestOneInput(const uint8_t *octets, size_t length)
{
    struct input in = {octets, length};
    char names[NAMES][LONGEST] = {{0}}, *written;
    const char *pointers[NAMES];
    size_t size, at;
    struct pcap pcap;
    for (int i = 0; i < NAMES; i++) {
        const size_t of_name = next(&in) % LONGEST;
        for (size_t j = 0; j < of_name; j++)
            names[i][j] = (char)next(&in);
        pointers[i] = names[i];
    }
    FILE *file = open_memstream(&written, &size);
    if (!pcap_begin(&pcap, file, pointers, NAMES))
        abort();
    at = check_block(written, size, 0, 0x0a0d0d0a);
    for (int i = 0; i < NAMES; i++)
        at += check_block(written, size, at, 1);
    while (in.left > 0) {
        const uint32_t port = 1 + next(&in) % NAMES;
        const enum direction direction = next(&in) % 2 == 0 ? INBOUND : OUTBOUND;
        const size_t wanted = next(&in), of_frame = wanted < in.left ? wanted : in.left;
        pcap_frame(&pcap, port, direction, (int64_t)of_frame << 33, in.at, of_frame);
        pcap_flush(&pcap);
        const size_t of_block = check_block(written, size, at, 6);
        check_frame(written + at, port, direction, in.at, of_frame);
        at += of_block;
        in.at += of_frame;
        in.left -= of_frame;
    }
    if (at != size)
        abort();
    fclose(file);
    free(written);
    return 0;
}
