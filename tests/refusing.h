// What tests/refusing.c adds to the C library.
#ifndef REFUSING_H
#define REFUSING_H

// Counts allocations anew, and lets the one with this number fail, counted from 1. If it is 0, none fails.
void wax_refuse(long number);

// Returns the number of allocations.
long wax_requests(void);

// Returns the number of blocks that were allocated and not freed.
long wax_blocks(void);

#endif
