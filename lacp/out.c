#include "out.h"

#include <errno.h>
#include <fcntl.h>
#include <poll.h>
#include <string.h>
#include <sys/stat.h>
#include <unistd.h>

/* A terminal or a pipe is opened once more, so that nobody else who has it finds that it does not wait. */
void out_open(struct out *out)
{
    struct stat is;
    *out = (struct out){.file = STDOUT_FILENO, .is_terminal = isatty(STDOUT_FILENO)};
    if (fstat(STDOUT_FILENO, &is) == 0 && (S_ISCHR(is.st_mode) || S_ISFIFO(is.st_mode))) {
        const int again = open("/proc/self/fd/1", O_WRONLY | O_NONBLOCK | O_NOCTTY | O_CLOEXEC);
        if (again >= 0)
            out->file = again;
    }
}

static bool takes_something(const struct out *out, int milliseconds)
{
    struct pollfd file = {.fd = out->file, .events = POLLOUT};
    return poll(&file, 1, milliseconds) > 0;
}

void out_flush(struct out *out)
{
    while (out->length > 0 && !out->is_closed && takes_something(out, 0)) {
        const size_t piece = out->length < 4096 ? out->length : 4096; /* as much as a pipe takes at once */
        const ssize_t written = write(out->file, out->waiting, piece);
        if (written < 0 && errno != EAGAIN && errno != EINTR)
            out->is_closed = true;
        if (written <= 0)
            return;
        out->length -= (size_t)written;
        memmove(out->waiting, out->waiting + written, out->length);
    }
}

void out_write(struct out *out, const char *octets, size_t length)
{
    if (length > sizeof out->waiting - out->length) {
        out->lost++;
        return;
    }
    memcpy(out->waiting + out->length, octets, length);
    out->length += length;
    out_flush(out);
}

void out_finish(struct out *out)
{
    for (int tenths = 0; tenths < 10 && out->length > 0 && !out->is_closed; tenths++) {
        takes_something(out, 100);
        out_flush(out);
    }
}
