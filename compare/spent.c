// User and system seconds of programs on one input, median of repeats in turn: spent INPUT REPEATS PROGRAM..
#define _DEFAULT_SOURCE // wait4
#include "median.h"

#include <fcntl.h>
#include <stdio.h>
#include <stdlib.h>
#include <sys/resource.h>
#include <sys/wait.h>
#include <unistd.h>

enum { MOST_PROGRAMS = 4 };

static double seconds_of(struct timeval time)
{
    return (double)time.tv_sec + (double)time.tv_usec / 1e6;
}

static double run(const char *program, const char *input)
{
    pid_t child = fork();
    if (child == 0) {
        int from = open(input, O_RDONLY), to = open("/dev/null", O_WRONLY);
        if (from < 0 || to < 0 || dup2(from, 0) < 0 || dup2(to, 1) < 0)
            _exit(127);
        execl(program, program, (char *)NULL);
        _exit(127);
    }
    int status;
    struct rusage used;
    if (child < 0 || wait4(child, &status, 0, &used) != child || status != 0) {
        fprintf(stderr, "spent: %s failed\n", program);
        exit(2);
    }
    return seconds_of(used.ru_utime) + seconds_of(used.ru_stime);
}

int main(int count, char **argument)
{
    static double times[MOST_PROGRAMS][MOST_REPEATS];
    int repeats = count > 3 ? atoi(argument[2]) : 0, programs = count - 3;
    if (repeats < 1 || repeats > MOST_REPEATS || programs > MOST_PROGRAMS) {
        fprintf(stderr, "spent INPUT REPEATS PROGRAM..\n");
        return 2;
    }
    for (int i = -1; i < repeats; i++) // the first run warms up
        for (int program = 0; program < programs; program++) {
            double seconds = run(argument[3 + program], argument[1]);
            if (i >= 0)
                times[program][i] = seconds;
        }
    for (int program = 0; program < programs; program++)
        printf("%.6f%c", median(times[program], (size_t)repeats), program + 1 < programs ? ' ' : '\n');
    return 0;
}
