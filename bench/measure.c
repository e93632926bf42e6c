/* Runs a program, and writes its processor seconds and its greatest memory in KB into a file. It
   ends the program, and ends with status 71, if that takes more than so many seconds.

       measure FILE SECONDS PROGRAM ARGUMENTS..

   A program that Python starts begins as a copy of Python, and its memory would be at least
   Python's. A program that this one starts begins as a small copy. */
#include <signal.h>
#include <stdio.h>
#include <stdlib.h>
#include <sys/resource.h>
#include <sys/wait.h>
#include <unistd.h>

int main(int count, char **words)
{
    struct rusage used;
    int status;
    FILE *figures;
    pid_t child;

    if (count < 4)
        return 64;
    child = fork();
    if (child == 0) {
        struct rlimit most = {strtoul(words[2], NULL, 10), RLIM_INFINITY};
        setrlimit(RLIMIT_CPU, &most);
        execv(words[3], words + 3);
        _exit(127);
    }
    if (child < 0 || wait4(child, &status, 0, &used) < 0)
        return 70;
    if (WIFSIGNALED(status) && WTERMSIG(status) == SIGXCPU)
        return 71;
    if (!WIFEXITED(status))
        return 70;
    figures = fopen(words[1], "w");
    if (!figures)
        return 70;
    fprintf(figures, "%f %ld\n",
            used.ru_utime.tv_sec + used.ru_stime.tv_sec
                + (used.ru_utime.tv_usec + used.ru_stime.tv_usec) / 1e6,
            used.ru_maxrss);
    return fclose(figures) ? 70 : WEXITSTATUS(status);
}
