/* A heap that counts the allocations that the library asks for, and refuses one of them. */
#ifndef REFUSING_HEAP_H
#define REFUSING_HEAP_H

#ifdef __cplusplus
extern "C" {
#endif

/* How many were asked for. */
extern long allocations;

/* The number of the one that is refused, from 0; none for -1. */
extern long refused_allocation;

#ifdef __cplusplus
}
#endif

#endif
