/* The time of finding receipts. */
#ifndef FIND_H
#define FIND_H

#include <stddef.h>

/* Measures gooseoften_find on the board of a file, and prints its time and ratios. Ends the program
 * with 1 if a number found is not as due. */
void measure_find(const char *path, size_t repeats, double seconds);

#endif
