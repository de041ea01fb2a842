/* Any words as a command line, one a line of the input: what is accepted can be run, and what is not has a reason. */
#include <stdlib.h>
#include <string.h>

#include "options.h"

enum { WORDS = 80 };

int LLVMFuzzerTestOneInput(const uint8_t *octets, size_t length);

static bool can_be_run(const struct options *o, enum asked asked)
{
    if (asked == ASKED_RUN && (o->count == 0 || o->want > o->count))
        return false;
    for (unsigned i = 0; i < PORTS; i++)
        if (o->keys[i] == 0)
            return false;
    for (unsigned i = 0; i < o->count; i++) {
        if (o->interfaces[i][0] == 0 || strlen(o->interfaces[i]) > 15)
            return false;
        for (unsigned j = 0; j < i; j++)
            if (strcmp(o->interfaces[i], o->interfaces[j]) == 0)
                return false;
    }
    return o->count <= PORTS && o->want <= PORTS && o->ends_after >= 0 && o->every >= 0 && !(o->listens && o->tap != NULL)
        && !(o->has_system && (o->system[0] & 1) != 0);
}

int LLVMFuzzerTestOneInput(const uint8_t *octets, size_t length)
{
    char *copy = malloc(length + 1), reason[256];
    const char *words[WORDS + 1] = {"lacp"};
    int count = 1;
    struct options options;
    struct text trouble = text_in(reason, sizeof reason);
    memcpy(copy, octets, length);
    copy[length] = 0;
    for (char *word = strtok(copy, "\n"); word != NULL && count < WORDS; word = strtok(NULL, "\n"))
        words[count++] = word;
    const enum asked asked = options_read(&options, count, words, &trouble);
    if ((asked == ASKED_RUN || asked == ASKED_TRY) && !can_be_run(&options, asked))
        abort();
    if (asked == ASKED_WRONG && trouble.length == 0 && !trouble.is_cut)
        abort();
    free(copy);
    return 0;
}
