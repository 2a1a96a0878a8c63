/*
 * programs.c: the time of two programs on the same input, one after the other in each round, as a row of a
 * table in markdown: programs NAME INPUT OURS PLAIN. What the two write must be the same.
 */
#define _GNU_SOURCE
#include <fcntl.h>
#include <stdio.h>
#include <stdlib.h>
#include <string.h>
#include <sys/wait.h>
#include <time.h>
#include <unistd.h>

#define ROUNDS 400

static char outputs[2][1 << 18];

static double now(void)
{
    struct timespec t;
    clock_gettime(CLOCK_MONOTONIC, &t);
    return (double)t.tv_sec * 1e6 + (double)t.tv_nsec / 1e3;
}

/* Microseconds from the program's start to the end of its output, which is kept. */
static double run(const char *program, const char *input, char *output, size_t *length)
{
    int ends[2];
    double begin = now();
    if (pipe(ends) != 0)
        exit(1);
    pid_t child = fork();
    if (child == 0) {
        int in = open(input, O_RDONLY);
        if (in < 0 || dup2(in, 0) < 0 || dup2(ends[1], 1) < 0)
            _exit(1);
        close(ends[0]);
        close(ends[1]);
        execl(program, program, (char *)NULL);
        _exit(1);
    }
    close(ends[1]);
    *length = 0;
    for (ssize_t got; (got = read(ends[0], output + *length, sizeof outputs[0] - *length)) > 0;)
        *length += (size_t)got;
    close(ends[0]);
    waitpid(child, NULL, 0);
    return now() - begin;
}

static int by_size(const void *p, const void *q)
{
    double a = *(const double *)p, b = *(const double *)q;
    return (a > b) - (a < b);
}

static double median(double *values)
{
    qsort(values, ROUNDS, sizeof *values, by_size);
    return values[ROUNDS / 2];
}

int main(int count, char **words)
{
    static double ours[ROUNDS], plain[ROUNDS], ratios[ROUNDS];
    if (count != 5)
        return 2;
    for (size_t n = 0; n < ROUNDS; n++) {
        size_t lengths[2];
        ours[n] = run(words[3], words[2], outputs[0], &lengths[0]);
        plain[n] = run(words[4], words[2], outputs[1], &lengths[1]);
        ratios[n] = ours[n] / plain[n];
        if (lengths[0] == 0 || lengths[0] != lengths[1] || memcmp(outputs[0], outputs[1], lengths[0]) != 0) {
            fprintf(stderr, "the two programs do not write the same\n");
            return 1;
        }
    }
    printf("| %s | %.0f | %.0f | %.2f |\n", words[1], median(ours), median(plain), median(ratios));
    return 0;
}
