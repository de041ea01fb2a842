/* lacp: speaks LACP on interfaces of this machine, and shows who is there, what carries, and why not. */
#include <stdio.h>

#include "options.h"
#include "run.h"
#include "try.h"

int main(int count, char **words)
{
    static struct options options;
    const struct place only = {.name = ""};
    char octets[256];
    struct text trouble = text_in(octets, sizeof octets);
    switch (options_read(&options, count, (const char *const *)words, &trouble)) {
    case ASKED_RUN:
        return run(&options, &only);
    case ASKED_TRY:
        return try_it(&options);
    case ASKED_HELP:
        fputs(options_help, stdout);
        return EXIT_DONE;
    case ASKED_VERSION:
        printf("lacp with myrkosti %u.%u\n", (unsigned)(myrkosti_version() >> 8), (unsigned)(myrkosti_version() & 0xff));
        return EXIT_DONE;
    default:
        fprintf(stderr, "lacp: %s\nlacp: --help tells more\n", octets);
        return EXIT_CANNOT;
    }
}
