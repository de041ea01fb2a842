/* Where the counting of a call's instructions begins and ends. by_callgrind.c tells callgrind; by_trace.c has two functions that one finds in
   an emulator's trace. */
#ifndef COUNT_H
#define COUNT_H

void count_begins(void);
void count_ends(const char *label);

#endif
