#include "rights.h"

#include <grp.h>
#include <linux/capability.h>
#include <stdint.h>
#include <stdlib.h>
#include <string.h>
#include <sys/prctl.h>
#include <sys/syscall.h>
#include <unistd.h>

enum { NOBODY = 65534 };

/* Whoever called sudo, otherwise nobody. */
static unsigned who(const char *variable)
{
    const char *said = getenv(variable);
    char *end;
    const unsigned long number = said == NULL ? 0 : strtoul(said, &end, 10);
    return number > 0 && number < NOBODY && *end == 0 ? (unsigned)number : NOBODY;
}

/* In a namespace that knows no other name, root of that namespace it stays. */
static void give_up_name(void)
{
    const unsigned user = who("SUDO_UID"), group = who("SUDO_GID");
    if (geteuid() != 0)
        return;
    prctl(PR_SET_KEEPCAPS, 1, 0, 0, 0);
    if (setgroups(0, NULL) < 0 || setresgid(group, group, group) < 0 || setresuid(user, user, user) < 0)
        return;
}

void rights_give_up(void)
{
    struct __user_cap_header_struct header = {.version = _LINUX_CAPABILITY_VERSION_3};
    struct __user_cap_data_struct kept[2];
    for (int right = 0; right <= CAP_LAST_CAP; right++)
        prctl(PR_CAPBSET_DROP, right, 0, 0, 0);
    prctl(PR_CAP_AMBIENT, PR_CAP_AMBIENT_CLEAR_ALL, 0, 0, 0);
    give_up_name();
    memset(kept, 0, sizeof kept);
    kept[0].effective = kept[0].permitted = UINT32_C(1) << CAP_NET_RAW;
    syscall(SYS_capset, &header, kept);
    prctl(PR_SET_NO_NEW_PRIVS, 1, 0, 0, 0);
}
