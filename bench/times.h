/* Times measured by turns. */
#ifndef TIMES_H
#define TIMES_H

#include <stddef.h>

/* Milliseconds of processor time since some start. */
double processor_time(void);

/*
 * Measures `count` things by turns, in another order each time, at least `repeats` times and for at
 * least `seconds` in all, after a first time that is not counted. once(what, turn) gives the
 * milliseconds of one of them; its least and its median go to places of that number.
 */
void by_turns(double (*once)(const void *what, size_t turn), const void *what, size_t count,
              size_t repeats, double seconds, double *least, double *median);

#endif
