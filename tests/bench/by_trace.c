#include "count.h"

#include <stdio.h>

void count_begins(void)
{
    __asm__ volatile("");
}

void count_ends(const char *label)
{
    puts(label);
}
