#include "table.h"

#include <errno.h>
#include <fcntl.h>
#include <string.h>
#include <sys/file.h>
#include <sys/mman.h>
#include <sys/stat.h>
#include <unistd.h>

static const char whose[16] = "myrkosti lacp 1";

static void read_boot(char boot[40])
{
    const int file = open("/proc/sys/kernel/random/boot_id", O_RDONLY | O_CLOEXEC);
    memset(boot, 0, 40);
    if (file < 0)
        return;
    const ssize_t length = read(file, boot, 36);
    if (length < 36)
        memset(boot, 0, 40);
    close(file);
}

/* The file, of one program at a time, as long as the copies are. */
static int open_file(const char *path, struct text *trouble)
{
    const int file = open(path, O_RDWR | O_CREAT | O_CLOEXEC | O_NOFOLLOW, 0600);
    struct stat is;
    if (file < 0 || fstat(file, &is) < 0)
        text_add(trouble, "--table %s: %s", path, strerror(errno));
    else if (!S_ISREG(is.st_mode))
        text_add(trouble, "--table %s: is no plain file", path);
    else if (flock(file, LOCK_EX | LOCK_NB) < 0)
        text_add(trouble, "--table %s: another lacp has it", path);
    else if (is.st_size != 0 && is.st_size != sizeof(struct copies))
        text_add(trouble, "--table %s: holds something else, which is left as it is", path);
    else if (ftruncate(file, sizeof(struct copies)) < 0)
        text_add(trouble, "--table %s: %s", path, strerror(errno));
    else
        return file; /* stays open: the lock goes with it */
    if (file >= 0)
        close(file);
    return -1;
}

bool table_open(struct table *table, const struct options *options, struct text *trouble)
{
    const int file = options->table == NULL ? -1 : open_file(options->table, trouble);
    if (options->table != NULL && file < 0)
        return false;
    void *memory = mmap(NULL, sizeof(struct copies), PROT_READ | PROT_WRITE, MAP_SHARED | (file < 0 ? MAP_ANONYMOUS : 0), file, 0);
    if (memory == MAP_FAILED) {
        text_add(trouble, "memory for a table: %s", strerror(errno));
        return false;
    }
    table_take(table, memory, options);
    return true;
}

void table_take(struct table *table, struct copies *copies, const struct options *options)
{
    *table = (struct table){.copies = copies, .length = myrkosti_table_size(options->count)};
}

static bool has_these_ports(const struct copies *copies, const struct options *options)
{
    if (copies->count != options->count)
        return false;
    for (unsigned i = 0; i < options->count; i++)
        if (strncmp(copies->names[i], options->interfaces[i], IFNAMSIZ) != 0)
            return false;
    return true;
}

enum left table_left(const struct table *table, const struct options *options)
{
    static const char unused[sizeof whose] = {0};
    const struct copies *copies = table->copies;
    char boot[40];
    uint8_t record[MYRKOSTI_RECORD];
    const bool is_ours = memcmp(copies->whose, whose, sizeof whose) == 0 && copies->size == sizeof *copies;
    if (memcmp(copies->whose, unused, sizeof unused) == 0 || (is_ours && copies->in_force == NONE))
        return LEFT_NOTHING;
    read_boot(boot);
    if (!is_ours || copies->in_force > NONE || memcmp(copies->boot, boot, sizeof boot) != 0 || !has_these_ports(copies, options))
        return LEFT_NO_USE;
    const uint32_t answer = myrkosti_port(copies->kept[copies->in_force].table, table->length, 1, record, sizeof record);
    return answer == MYRKOSTI_DONE ? LEFT_TABLE : LEFT_NO_USE;
}

void table_clear(struct table *table, const struct options *options)
{
    struct copies *copies = table->copies;
    memset(copies, 0, sizeof *copies);
    copies->in_force = NONE;
    copies->size = sizeof *copies;
    copies->count = options->count;
    for (unsigned i = 0; i < options->count; i++)
        strncpy(copies->names[i], options->interfaces[i], IFNAMSIZ - 1);
    read_boot(copies->boot);
    memcpy(copies->whose, whose, sizeof whose);
}

struct kept *table_work(struct table *table)
{
    struct copies *copies = table->copies;
    if (copies->in_force >= NONE)
        return &copies->kept[0];
    return memcpy(&copies->kept[1 - copies->in_force], &copies->kept[copies->in_force], sizeof(struct kept));
}

void table_swap(struct table *table)
{
    struct copies *copies = table->copies;
    copies->in_force = copies->in_force >= NONE ? 0 : 1 - copies->in_force;
}

void table_end(struct table *table)
{
    table->copies->in_force = NONE;
}
