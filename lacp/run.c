#include "run.h"

#include <errno.h>
#include <stdio.h>
#include <string.h>

#include "loop.h"
#include "rights.h"

static struct driver driver;
static struct out out;
static struct show show;
static FILE *capture;

static int cannot(int code, const char *trouble)
{
    fprintf(stderr, "lacp: %s\n", trouble);
    return code;
}

static bool open_table(const struct options *options, const struct place *place, struct text *trouble)
{
    if (place->copies == NULL)
        return table_open(&driver.table, options, trouble);
    table_take(&driver.table, place->copies, options);
    return true;
}

static bool open_capture(const struct options *options, struct text *trouble)
{
    if (options->pcap == NULL)
        return true;
    capture = fopen(options->pcap, "we");
    if (capture != NULL && pcap_begin(&driver.pcap, capture, options->interfaces, options->count))
        return true;
    text_add(trouble, "--pcap %s: %s", options->pcap, strerror(errno));
    return false;
}

/* Everything that needs a right or a file, in the order in which one needs the other. */
static int open_all(const struct options *options, const struct place *place)
{
    char octets[256];
    struct text trouble = text_in(octets, sizeof octets);
    if (!open_table(options, place, &trouble) || !open_capture(options, &trouble) || !driver_begin(&driver, &trouble))
        return cannot(EXIT_CANNOT, octets);
    if (driver.left == LEFT_NO_USE)
        fprintf(stderr, "lacp: no table to go on with (it is damaged, of other interfaces, or of before this machine was started): started anew\n");
    if (options->tap != NULL && !tap_open(&driver.tap, options->tap, driver.system.address, driver.ports, driver.count, &trouble)) {
        const bool is_forbidden = errno == EPERM || errno == EACCES;
        return cannot(is_forbidden ? EXIT_RIGHTS : EXIT_CANNOT, octets);
    }
    if (!driver_open(&driver))
        return cannot(EXIT_RIGHTS, "may not open sockets on interfaces: needs CAP_NET_RAW (sudo, or setcap cap_net_raw=ep); `lacp try` needs no rights");
    return EXIT_DONE;
}

/* Whether all went well with what was open; says what did not. */
static bool close_all(const struct options *options)
{
    const bool is_cut = capture != NULL && (driver.pcap.file == NULL || fclose(capture) != 0);
    const bool is_gone = options->tap != NULL && driver.tap.file < 0;
    if (is_cut)
        fprintf(stderr, "lacp: --pcap %s: could not be written to its end\n", options->pcap);
    if (is_gone)
        fprintf(stderr, "lacp: --tap %s: somebody removed it\n", options->tap);
    return !is_cut && !is_gone;
}

int run(const struct options *options, const struct place *place)
{
    driver = (struct driver){.options = options, .tap = {.file = -1}};
    show = (struct show){.out = &out, .name = place->name, .row = place->row, .rows = place->rows};
    const int opened = open_all(options, place);
    if (opened != EXIT_DONE)
        return opened;
    out_open(&out);
    loop_catch_signals();
    rights_give_up();
    const bool enough = loop_run(&driver, &show);
    if (!options->listens)
        loop_leave(&driver);
    return close_all(options) ? enough ? EXIT_DONE : EXIT_TOO_FEW : EXIT_CANNOT;
}
