// The median of measured times.
#ifndef COMPARE_MEDIAN_H
#define COMPARE_MEDIAN_H

#include <stdlib.h>

enum { MOST_REPEATS = 101 };

static int by_size(const void *left, const void *right)
{
    double a = *(const double *)left, b = *(const double *)right;
    return (a > b) - (a < b);
}

// Sorts the times.
static double median(double *times, size_t count)
{
    qsort(times, count, sizeof times[0], by_size);
    return times[count / 2];
}

#endif
