/* Wires for `lacp try`: pairs of virtual interfaces, and what may happen to them. Each call says whether the kernel did it. */
#ifndef LACP_WIRES_H
#define LACP_WIRES_H

#include <stdbool.h>
#include <stdint.h>

int wires_open(void);

/* Makes two interfaces that are joined. */
bool wires_join(int wires, const char *a, const uint8_t address_a[6], const char *b, const uint8_t address_b[6]);

bool wires_switch(int wires, const char *name, bool on);

/* The interface must be off. */
bool wires_rename(int wires, const char *from, const char *to);

/* From now on nothing that it sends arrives; or everything does again. */
bool wires_silence(int wires, const char *name, bool is_silent);

#endif
