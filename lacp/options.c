#include "options.h"

#include <ctype.h>
#include <linux/if.h>
#include <stdlib.h>
#include <string.h>

#include "clock.h"

const char options_help[] =
    "usage: lacp [options] IF ..    speaks LACP on these interfaces and shows who is there, what carries, and why not\n"
    "       lacp try [options]      no hardware, no root: two of them on four links, with keys to disturb them\n"
    "\n"
    "  -k, --key KEY        key of all ports (1); ports of different keys are never in one trunk\n"
    "  -k, --key IF=KEY     key of one port\n"
    "  -s, --system ADDRESS this system, as 02:00:00:00:00:01; otherwise the address of the first interface\n"
    "      --priority N     priority of this system (32768)\n"
    "      --passive        speaks only when spoken to\n"
    "      --slow           long timeout: an LACPDU every 30 seconds, and a silent partner is given up after 90\n"
    "      --alone          every port by itself\n"
    "      --listen         sends nothing, and tells who is there\n"
    "      --tap NAME       makes an interface NAME, whose traffic the trunk carries\n"
    "      --json           one JSON object a line: at the start, at every change, at the end (docs/lacp.schema.json)\n"
    "      --every S        with --json: and every S seconds\n"
    "      --pcap FILE      writes every frame that it hears and sends, with port and direction, as pcapng\n"
    "      --for S          ends after S seconds\n"
    "      --want N         ends when N links carry\n"
    "      --table FILE     keeps its table there, and goes on where a killed one stopped\n"
    "  -h, --help           this page;   --version\n"
    "\n"
    "It ends with 0; 1 if fewer links carry than --want asks for; 2 if something here cannot be; 3 for lack of rights:\n"
    "it needs CAP_NET_RAW, and CAP_NET_ADMIN for --tap. In a terminal it shows a live view, elsewhere changes as lines.\n";

/* ---- what a word may be ---- */

static bool read_number(const char *word, unsigned long most, unsigned long *number)
{
    char *end;
    if (!isdigit((unsigned char)word[0]))
        return false;
    *number = strtoul(word, &end, 10);
    return *end == 0 && strlen(word) <= 9 && *number <= most;
}

/* seconds, with a point if need be: from a tenth to some thirty years */
static bool read_seconds(const char *word, int64_t *nanoseconds)
{
    char *end;
    if (!isdigit((unsigned char)word[0]) || strspn(word, "0123456789.") != strlen(word) || strlen(word) > 16)
        return false;
    const double seconds = strtod(word, &end);
    if (*end != 0 || !(seconds >= 0.1 && seconds <= 1e9))
        return false;
    *nanoseconds = (int64_t)(seconds * (double)SECOND);
    return true;
}

static int hex(char c)
{
    return isdigit((unsigned char)c) ? c - '0' : isxdigit((unsigned char)c) ? tolower((unsigned char)c) - 'a' + 10 : -1;
}

/* six octets, as 02:00:00:00:00:01; of no group, and not all 0 */
static bool read_address(const char *word, uint8_t address[6])
{
    unsigned all = 0;
    if (strlen(word) != 17)
        return false;
    for (int i = 0; i < 6; i++) {
        const int high = hex(word[3 * i]), low = hex(word[3 * i + 1]);
        if (high < 0 || low < 0 || (i < 5 && word[3 * i + 2] != ':' && word[3 * i + 2] != '-'))
            return false;
        all |= address[i] = (uint8_t)(high << 4 | low);
    }
    return all != 0 && (address[0] & 1) == 0;
}

static bool is_interface_name(const char *word, size_t length)
{
    return length > 0 && length < IFNAMSIZ && memchr(word, '/', length) == NULL && memchr(word, '=', length) == NULL;
}

/* ---- the options ---- */

static bool take_key(struct options *o, const char *value)
{
    unsigned long key;
    if (strchr(value, '=') != NULL) { /* of one port: taken when all names are known */
        if (o->own_keys_count == PORTS)
            return false;
        o->own_keys[o->own_keys_count++] = value;
        return true;
    }
    if (!read_number(value, 65535, &key) || key == 0)
        return false;
    for (unsigned i = 0; i < PORTS; i++)
        o->keys[i] = (uint16_t)key;
    return true;
}

static bool take_system(struct options *o, const char *value)
{
    return o->has_system = read_address(value, o->system);
}

static bool take_priority(struct options *o, const char *value)
{
    unsigned long priority;
    if (!read_number(value, 65535, &priority))
        return false;
    o->system_priority = (uint16_t)priority;
    return true;
}

static bool take_want(struct options *o, const char *value)
{
    unsigned long want;
    if (!read_number(value, PORTS, &want) || want == 0)
        return false;
    o->want = (unsigned)want;
    return true;
}

static bool take_passive(struct options *o, const char *value)
{
    (void)value;
    o->is_active = false;
    return true;
}

static bool take_slow(struct options *o, const char *value)
{
    (void)value;
    o->is_short = false;
    return true;
}

static bool take_alone(struct options *o, const char *value)
{
    (void)value;
    return o->is_alone = true;
}

static bool take_listen(struct options *o, const char *value)
{
    (void)value;
    return o->listens = true;
}

static bool take_json(struct options *o, const char *value)
{
    (void)value;
    return o->is_json = true;
}

static bool take_tap(struct options *o, const char *value)
{
    o->tap = value;
    return is_interface_name(value, strlen(value)) && strchr(value, '%') == NULL;
}

static bool take_pcap(struct options *o, const char *value)
{
    o->pcap = value;
    return value[0] != 0;
}

static bool take_table(struct options *o, const char *value)
{
    o->table = value;
    return value[0] != 0;
}

static bool take_every(struct options *o, const char *value)
{
    return read_seconds(value, &o->every);
}

static bool take_for(struct options *o, const char *value)
{
    return read_seconds(value, &o->ends_after);
}

static const struct option {
    const char *name, *letter, *wants; /* `wants` names the value that follows, if one does */
    bool (*take)(struct options *o, const char *value);
} all_options[] = {
    {"--key", "-k", "a key from 1 to 65535, or IF=KEY", take_key},
    {"--system", "-s", "an address as 02:00:00:00:00:01", take_system},
    {"--priority", NULL, "a number from 0 to 65535", take_priority},
    {"--passive", NULL, NULL, take_passive},
    {"--slow", NULL, NULL, take_slow},
    {"--alone", NULL, NULL, take_alone},
    {"--listen", NULL, NULL, take_listen},
    {"--tap", NULL, "a name for the interface", take_tap},
    {"--json", NULL, NULL, take_json},
    {"--every", NULL, "seconds, 0.1 or more", take_every},
    {"--pcap", NULL, "a file", take_pcap},
    {"--for", NULL, "seconds, 0.1 or more", take_for},
    {"--want", NULL, "a number of links from 1 to 32", take_want},
    {"--table", NULL, "a file", take_table},
};

/* The option that a word names, NULL for none; `value` is what stands behind '=' in the word, if anything does. */
static const struct option *option_of(const char *word, const char **value)
{
    const size_t length = strcspn(word, "=");
    for (size_t i = 0; i < sizeof all_options / sizeof *all_options; i++) {
        const struct option *option = &all_options[i];
        if (strlen(option->name) == length && strncmp(word, option->name, length) == 0) {
            *value = word[length] == '=' ? word + length + 1 : NULL;
            return option;
        }
        if (option->letter != NULL && strcmp(word, option->letter) == 0) {
            *value = NULL;
            return option;
        }
    }
    return NULL;
}

/* IF=KEY: false if it names no port of ours, or is no key */
static bool take_key_of_one(struct options *o, const char *value)
{
    const size_t length = strcspn(value, "=");
    unsigned long key;
    bool is_ours = false;
    if (!read_number(value + length + 1, 65535, &key) || key == 0)
        return false;
    for (unsigned i = 0; i < o->count; i++) {
        if (strlen(o->interfaces[i]) == length && strncmp(o->interfaces[i], value, length) == 0) {
            o->keys[i] = (uint16_t)key;
            is_ours = true;
        }
    }
    return is_ours;
}

static bool take_own_keys(struct options *o, struct text *trouble)
{
    for (unsigned i = 0; i < o->own_keys_count; i++) {
        if (!take_key_of_one(o, o->own_keys[i])) {
            text_add(trouble, "--key %s: needs an interface of this command line and a key from 1 to 65535", o->own_keys[i]);
            return false;
        }
    }
    return true;
}

static bool take_interface(struct options *o, const char *word, struct text *trouble)
{
    if (!is_interface_name(word, strlen(word))) {
        text_add(trouble, "%s: cannot be the name of an interface", word);
        return false;
    }
    for (unsigned i = 0; i < o->count; i++) {
        if (strcmp(o->interfaces[i], word) == 0) {
            text_add(trouble, "%s: named twice", word);
            return false;
        }
    }
    if (o->count == PORTS) {
        text_add(trouble, "%s: one more than %d interfaces", word, PORTS);
        return false;
    }
    o->interfaces[o->count++] = word;
    return true;
}

/* What cannot be together. */
static bool fit(const struct options *o, bool is_try, struct text *trouble)
{
    if (is_try && (o->count > 0 || o->tap != NULL || o->pcap != NULL || o->table != NULL || o->has_system || o->listens))
        text_add(trouble, "lacp try: makes its own interfaces, and takes no --system, --listen, --tap, --pcap or --table");
    else if (!is_try && o->count == 0)
        text_add(trouble, "no interface is named");
    else if (o->every != 0 && !o->is_json)
        text_add(trouble, "--every: only with --json");
    else if (o->listens && (o->tap != NULL || o->want != 0 || o->table != NULL))
        text_add(trouble, "--listen: nothing carries, so not with --tap, --want or --table");
    else if (o->want > o->count && !is_try)
        text_add(trouble, "--want %u: there are %u interfaces", o->want, o->count);
    else
        return true;
    return false;
}

enum asked options_read(struct options *o, int count, const char *const *words, struct text *trouble)
{
    const bool is_try = count > 1 && strcmp(words[1], "try") == 0;
    *o = (struct options){.is_active = true, .is_short = true, .system_priority = 32768};
    take_key(o, "1");
    for (int i = is_try ? 2 : 1; i < count; i++) {
        const char *word = words[i], *value = NULL;
        if (strcmp(word, "--help") == 0 || strcmp(word, "-h") == 0)
            return ASKED_HELP;
        if (strcmp(word, "--version") == 0)
            return ASKED_VERSION;
        if (word[0] != '-') {
            if (!take_interface(o, word, trouble))
                return ASKED_WRONG;
            continue;
        }
        const struct option *option = option_of(word, &value);
        if (option == NULL || (option->wants == NULL && value != NULL)) {
            text_add(trouble, "%s: no such option", word);
            return ASKED_WRONG;
        }
        if (option->wants != NULL && value == NULL && i + 1 < count)
            value = words[++i];
        if ((option->wants != NULL && value == NULL) || !option->take(o, value)) {
            text_add(trouble, "%s: needs %s", option->name, option->wants);
            return ASKED_WRONG;
        }
    }
    if (!fit(o, is_try, trouble) || !take_own_keys(o, trouble))
        return ASKED_WRONG;
    return is_try ? ASKED_TRY : ASKED_RUN;
}
