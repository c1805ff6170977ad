// Runs a program and tells what it used: measured REPORT SECONDS PROGRAM WORD ..
//
// Into the file REPORT it writes the status (a signal as its negative number), the processor time in microseconds and the
// peak of resident memory in kilobytes. After so many seconds of processor time the system stops the program.
// It is small itself, since a process begins with the peak of the one that made it.
#include <stdio.h>
#include <stdlib.h>
#include <sys/resource.h>
#include <sys/wait.h>
#include <unistd.h>

static long long microseconds(struct timeval time) {
    return time.tv_sec * 1000000LL + time.tv_usec;
}

int main(int count, char **words) {
    if (count < 4) return 2;
    pid_t child = fork();
    if (child == 0) {
        rlim_t seconds = strtoul(words[2], NULL, 10);
        struct rlimit limit = {seconds, seconds};
        setrlimit(RLIMIT_CPU, &limit);
        execv(words[3], words + 3);
        _exit(127);
    }
    int status = 0;
    struct rusage used;
    if (child < 0 || wait4(child, &status, 0, &used) != child) return 2;
    int ended = WIFSIGNALED(status) ? -WTERMSIG(status) : WEXITSTATUS(status);
    FILE *report = fopen(words[1], "w");
    if (!report) return 2;
    fprintf(report, "%d %lld %ld\n", ended, microseconds(used.ru_utime) + microseconds(used.ru_stime), used.ru_maxrss);
    return fclose(report) ? 2 : 0;
}
