// How long a call takes, for the programs here that time.
#ifndef TIMING_H
#define TIMING_H

#include "c.h"

// Processor time, so that other programs on the machine count less.
static double now(void) {
    struct timespec t;
    clock_gettime(CLOCK_PROCESS_CPUTIME_ID, &t);
    return t.tv_sec * 1e9 + t.tv_nsec;
}

static double time_of(void (*part)(void), unsigned calls) {
    double began = now();
    for (unsigned i = 0; i < calls; i++) part();
    return (now() - began) / calls;
}

#endif
