#include "try.h"

#include <errno.h>
#include <fcntl.h>
#include <poll.h>
#include <sched.h>
#include <signal.h>
#include <stdio.h>
#include <string.h>
#include <sys/ioctl.h>
#include <sys/mman.h>
#include <sys/prctl.h>
#include <sys/wait.h>
#include <termios.h>
#include <unistd.h>

#include "run.h"
#include "wires.h"

enum { LINKS = 4, A = 0, B = 1, HELP_ROWS = 2 };

static const char *const names[2][LINKS] = {{"a1", "a2", "a3", "a4"}, {"b1", "b2", "b3", "b4"}};

struct trial {
    struct options options[2]; /* of A and B */
    struct place places[2];
    pid_t children[2];         /* 0 where it has ended */
    int codes[2];
    int wires;
    unsigned chosen;           /* a link, from 0 */
    bool is_cut[LINKS], is_silent[LINKS], is_stopped;
    bool is_terminal;
    unsigned rows;
    struct termios before;     /* of the terminal that keys come from */
    bool has_keys;
};

static volatile sig_atomic_t is_ended;

static void end(int signal)
{
    (void)signal;
    is_ended = 1;
}

/* ---- a namespace of our own ---- */

static bool write_file(const char *path, const char *words)
{
    const int file = open(path, O_WRONLY | O_CLOEXEC);
    const bool done = file >= 0 && write(file, words, strlen(words)) == (ssize_t)strlen(words);
    if (file >= 0)
        close(file);
    return done;
}

/* In a user's own namespace everybody may make interfaces; where there are none, root may. */
static bool enter_namespace(void)
{
    char user[64], group[64];
    snprintf(user, sizeof user, "0 %u 1", (unsigned)geteuid());
    snprintf(group, sizeof group, "0 %u 1", (unsigned)getegid());
    if (unshare(CLONE_NEWUSER | CLONE_NEWNET) < 0)
        return unshare(CLONE_NEWNET) == 0;
    return write_file("/proc/self/setgroups", "deny") && write_file("/proc/self/uid_map", user) && write_file("/proc/self/gid_map", group);
}

static bool make_wires(struct trial *t)
{
    t->wires = wires_open();
    for (uint8_t i = 0; i < LINKS; i++) {
        const uint8_t a[6] = {2, 0, 0, 0, 0x0a, (uint8_t)(i + 1)}, b[6] = {2, 0, 0, 0, 0x0b, (uint8_t)(i + 1)};
        if (!wires_join(t->wires, names[A][i], a, names[B][i], b) || !wires_switch(t->wires, names[A][i], true) || !wires_switch(t->wires, names[B][i], true))
            return false;
    }
    return true;
}

/* ---- the two switches ---- */

static bool prepare(struct trial *t, const struct options *options)
{
    struct winsize window = {0};
    t->is_terminal = isatty(STDOUT_FILENO) && !options->is_json;
    if (t->is_terminal)
        ioctl(STDOUT_FILENO, TIOCGWINSZ, &window);
    t->rows = window.ws_row < 2 + HELP_ROWS ? 24 : window.ws_row;
    const unsigned half = (t->rows - HELP_ROWS) / 2;
    for (int i = A; i <= B; i++) {
        void *memory = mmap(NULL, sizeof(struct copies), PROT_READ | PROT_WRITE, MAP_SHARED | MAP_ANONYMOUS, -1, 0);
        if (memory == MAP_FAILED)
            return false;
        t->options[i] = *options;
        t->options[i].count = LINKS;
        memcpy(t->options[i].interfaces, names[i], sizeof names[i]);
        t->places[i] = (struct place){.name = i == A ? "A" : "B", .row = i == A ? 0 : half, .rows = half, .copies = memory};
    }
    return true;
}

static void begin(struct trial *t, int i)
{
    const pid_t child = fork();
    if (child == 0) {
        prctl(PR_SET_PDEATHSIG, SIGTERM);
        _exit(run(&t->options[i], &t->places[i]));
    }
    t->children[i] = child < 0 ? 0 : child;
    t->codes[i] = EXIT_CANNOT;
}

static void notice_end(struct trial *t, int i, int options)
{
    int status;
    if (t->children[i] == 0 || waitpid(t->children[i], &status, options) != t->children[i])
        return;
    t->children[i] = 0;
    t->codes[i] = WIFEXITED(status) ? WEXITSTATUS(status) : EXIT_CANNOT;
}

/* ---- what is said of it ---- */

static const char *word_of(const struct trial *t, unsigned i)
{
    return t->is_cut[i] ? "cut" : t->is_silent[i] ? "silent from B" : "whole";
}

static void draw_help(const struct trial *t)
{
    printf("\033[%u;1H\033[K", t->rows - 1);
    for (unsigned i = 0; i < LINKS; i++)
        printf("%s %u %s %s", i == t->chosen ? "\033[7m" : "", i + 1, word_of(t, i), i == t->chosen ? "\033[0m" : "");
    printf("%s\033[%u;1H\033[K", t->is_stopped ? "   B is stopped" : "", t->rows);
    printf("1-4 choose a link: c cut  s silence  x swap with the next;   B: z stop  k kill, goes on;   q quit");
    fflush(stdout);
}

static void tell(const struct trial *t, const char *what)
{
    if (t->is_terminal)
        draw_help(t);
    else if (!t->options[A].is_json)
        printf("try: %s\n", what);
    fflush(stdout);
}

/* ---- keys ---- */

static void cut(struct trial *t)
{
    const unsigned i = t->chosen;
    if (wires_switch(t->wires, names[B][i], t->is_cut[i]))
        t->is_cut[i] = !t->is_cut[i];
    tell(t, t->is_cut[i] ? "a link is cut" : "a link is whole again");
}

static void silence(struct trial *t)
{
    const unsigned i = t->chosen;
    if (wires_silence(t->wires, names[B][i], !t->is_silent[i]))
        t->is_silent[i] = !t->is_silent[i];
    tell(t, t->is_silent[i] ? "a link is silent from B to A" : "a link is heard again");
}

/* At B, the cable of the chosen link goes where that of the next was, and that one here. What is cut or silent goes with its cable. */
static void swap(struct trial *t)
{
    const unsigned i = t->chosen, j = (i + 1) % LINKS;
    const bool was_cut = t->is_cut[i], was_silent = t->is_silent[i];
    wires_switch(t->wires, names[B][i], false);
    wires_switch(t->wires, names[B][j], false);
    wires_rename(t->wires, names[B][i], "between");
    wires_rename(t->wires, names[B][j], names[B][i]);
    wires_rename(t->wires, "between", names[B][j]);
    t->is_cut[i] = t->is_cut[j];
    t->is_silent[i] = t->is_silent[j];
    t->is_cut[j] = was_cut;
    t->is_silent[j] = was_silent;
    wires_switch(t->wires, names[B][i], !t->is_cut[i]);
    wires_switch(t->wires, names[B][j], !t->is_cut[j]);
    tell(t, "two cables are swapped at B");
}

static void stop(struct trial *t)
{
    if (t->children[B] != 0 && kill(t->children[B], t->is_stopped ? SIGCONT : SIGSTOP) == 0)
        t->is_stopped = !t->is_stopped;
    tell(t, t->is_stopped ? "B is stopped" : "B goes on");
}

static void kill_and_begin(struct trial *t)
{
    if (t->children[B] != 0)
        kill(t->children[B], SIGKILL);
    notice_end(t, B, 0);
    t->is_stopped = false;
    begin(t, B);
    tell(t, "B was killed, and another goes on with its table");
}

static void press(struct trial *t, char key)
{
    switch (key) {
    case '1': case '2': case '3': case '4':
        t->chosen = (unsigned)(key - '1');
        tell(t, "another link is chosen");
        break;
    case 'c': cut(t); break;
    case 's': silence(t); break;
    case 'x': swap(t); break;
    case 'z': stop(t); break;
    case 'k': kill_and_begin(t); break;
    case 'q': is_ended = 1; break;
    default: break;
    }
}

/* ---- the whole ---- */

static void take_terminal(struct trial *t)
{
    struct termios raw;
    t->has_keys = tcgetattr(STDIN_FILENO, &t->before) == 0;
    if (t->has_keys) {
        raw = t->before;
        raw.c_lflag &= ~(tcflag_t)(ICANON | ECHO);
        tcsetattr(STDIN_FILENO, TCSANOW, &raw);
    }
    if (t->is_terminal) {
        printf("\033[2J");
        draw_help(t);
    }
}

static void give_terminal_back(struct trial *t)
{
    if (t->has_keys)
        tcsetattr(STDIN_FILENO, TCSANOW, &t->before);
    if (t->is_terminal)
        printf("\033[%u;1H\n", t->rows);
}

static void hear_keys(struct trial *t)
{
    struct pollfd keys = {.fd = STDIN_FILENO, .events = POLLIN};
    while (!is_ended && (t->children[A] != 0 || t->children[B] != 0)) {
        char key;
        if (poll(&keys, 1, 100) > 0) {
            if (read(STDIN_FILENO, &key, 1) == 1)
                press(t, key);
            else
                keys.fd = -1; /* no more will come */
        }
        notice_end(t, A, WNOHANG);
        notice_end(t, B, WNOHANG);
    }
}

static void end_children(struct trial *t)
{
    for (int i = A; i <= B; i++) {
        if (t->children[i] == 0)
            continue;
        kill(t->children[i], SIGTERM);
        kill(t->children[i], SIGCONT);
        notice_end(t, i, 0);
    }
}

int try_it(const struct options *options)
{
    static struct trial trial;
    const struct sigaction action = {.sa_handler = end};
    if (!enter_namespace()) {
        fprintf(stderr, "lacp: may not make a namespace of its own: %s; try it as root\n", strerror(errno));
        return EXIT_RIGHTS;
    }
    if (!prepare(&trial, options) || !make_wires(&trial)) {
        fprintf(stderr, "lacp: cannot make its interfaces: %s\n", strerror(errno));
        return EXIT_CANNOT;
    }
    take_terminal(&trial);
    begin(&trial, A);
    begin(&trial, B);
    sigaction(SIGINT, &action, NULL);
    sigaction(SIGTERM, &action, NULL);
    hear_keys(&trial);
    end_children(&trial);
    give_terminal_back(&trial);
    return trial.codes[A] > trial.codes[B] ? trial.codes[A] : trial.codes[B];
}
