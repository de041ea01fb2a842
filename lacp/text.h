/* Text that grows in lent memory. What does not fit is left out, and is_cut tells. */
#ifndef LACP_TEXT_H
#define LACP_TEXT_H

#include <stdbool.h>
#include <stddef.h>

struct text {
    char *octets; /* ends with 0 at `length` */
    size_t size, length;
    bool is_cut;
};

struct text text_in(char *octets, size_t size);
__attribute__((format(printf, 2, 3))) void text_add(struct text *text, const char *format, ...);

#endif
