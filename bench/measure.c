/* measure REPORT PROGRAM [ARGUMENT]..: runs the program and writes its seconds, its processor seconds, its
   maximum memory in kilobytes and its status into the file REPORT. This is a small program because the
   memory that the system counts for a child begins with that of the process that started it. */
#include <stdio.h>
#include <sys/resource.h>
#include <sys/wait.h>
#include <time.h>
#include <unistd.h>

static double seconds(void)
{
    struct timespec now;
    clock_gettime(CLOCK_MONOTONIC, &now);
    return (double)now.tv_sec + (double)now.tv_nsec / 1e9;
}

static double processor_seconds(const struct rusage *usage)
{
    return (double)(usage->ru_utime.tv_sec + usage->ru_stime.tv_sec)
        + (double)(usage->ru_utime.tv_usec + usage->ru_stime.tv_usec) / 1e6;
}

int main(int words, char **word)
{
    struct rusage usage;
    int status;
    if (words < 3)
        return fputs("usage: measure REPORT PROGRAM [WORD]..\n", stderr), 2;
    double start = seconds();
    pid_t child = fork();
    if (child == 0) {
        execvp(word[2], word + 2);
        perror(word[2]);
        _exit(127);
    }
    if (child < 0 || wait4(child, &status, 0, &usage) != child)
        return perror("measure"), 1;
    double taken = seconds() - start;
    FILE *report = fopen(word[1], "w");
    if (!report)
        return perror(word[1]), 1;
    fprintf(report, "%.6f %.6f %ld %d\n", taken, processor_seconds(&usage), usage.ru_maxrss,
        WIFEXITED(status) ? WEXITSTATUS(status) : -1);
    return fclose(report) != 0;
}
