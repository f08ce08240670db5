/* Times measured by turns. */
#define _POSIX_C_SOURCE 200809L /* clock_gettime */

#include "times.h"

#include <stdlib.h>
#include <time.h>

#include "files.h"

enum { MOST_TIMES = 4096 };

static double milliseconds(clockid_t clock)
{
    struct timespec now;

    clock_gettime(clock, &now);
    return 1e3 * (double)now.tv_sec + 1e-6 * (double)now.tv_nsec;
}

double processor_time(void)
{
    return milliseconds(CLOCK_PROCESS_CPUTIME_ID);
}

static int compare(const void *a, const void *b)
{
    double x = *(const double *)a, y = *(const double *)b;

    return (x > y) - (x < y);
}

void by_turns(double (*once)(const void *what, size_t turn), const void *what, size_t count,
              size_t repeats, double seconds, double *least, double *median)
{
    double *times = room_for(count * MOST_TIMES, sizeof *times);
    double end = milliseconds(CLOCK_MONOTONIC) + 1e3 * seconds;
    size_t done = 0;

    for (size_t i = 0; i < count; i++) {
        once(what, i);
    }
    while (done < MOST_TIMES && (done < repeats || milliseconds(CLOCK_MONOTONIC) < end)) {
        for (size_t i = 0; i < count; i++) {
            size_t turn = (i + done) % count;
            times[turn * MOST_TIMES + done] = once(what, turn);
        }
        done++;
    }
    for (size_t i = 0; i < count; i++) {
        double *own = times + i * MOST_TIMES;
        qsort(own, done, sizeof *own, compare);
        least[i] = own[0];
        median[i] = own[done / 2];
    }
    free(times);
}
