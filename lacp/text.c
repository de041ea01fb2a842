#include "text.h"

#include <stdarg.h>
#include <stdio.h>

struct text text_in(char *octets, size_t size)
{
    octets[0] = 0;
    return (struct text){.octets = octets, .size = size};
}

void text_add(struct text *text, const char *format, ...)
{
    va_list words;
    va_start(words, format);
    const int needed = vsnprintf(text->octets + text->length, text->size - text->length, format, words);
    va_end(words);
    if (needed >= 0 && (size_t)needed < text->size - text->length) {
        text->length += (size_t)needed;
    } else {
        text->octets[text->length] = 0;
        text->is_cut = true;
    }
}
