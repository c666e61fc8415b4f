/* held: runs a program, and says on standard error how many KiB of pages of its own it holds as it ends. Usage: held CMD [ARG..]
 * A page of its own that a program has touched once stays with it to the end where, as in the desk, nothing is given back: so this is the most it ever held.
 * The program is stopped before its memory goes, and the system's own count of it is read (Anonymous in /proc/PID/smaps_rollup). The exit status is the program's. */
#include <signal.h>
#include <stdio.h>
#include <stdlib.h>
#include <string.h>
#include <sys/ptrace.h>
#include <sys/wait.h>
#include <unistd.h>

/* The KiB of a stopped program's own pages, or -1. */
static long held(pid_t pid)
{
    char name[64], line[256];
    long kib = -1;
    snprintf(name, sizeof name, "/proc/%d/smaps_rollup", (int)pid);
    FILE *rollup = fopen(name, "r");
    if (rollup == NULL)
        return -1;
    while (fgets(line, sizeof line, rollup) != NULL)
        if (strncmp(line, "Anonymous:", 10) == 0)
            kib = strtol(line + 10, NULL, 10);
    fclose(rollup);
    return kib;
}

int main(int argc, char **argv)
{
    int status;
    if (argc < 2)
        return 2;
    pid_t pid = fork();
    if (pid == 0) {
        if (ptrace(PTRACE_TRACEME, 0, NULL, NULL) == 0)
            execvp(argv[1], argv + 1);
        _exit(126);
    }
    /* It stops once as it is started, and again as it ends. */
    if (pid < 0 || waitpid(pid, &status, 0) < 0 || !WIFSTOPPED(status) ||
        ptrace(PTRACE_SETOPTIONS, pid, NULL, (void *)PTRACE_O_TRACEEXIT) != 0 ||
        ptrace(PTRACE_CONT, pid, NULL, NULL) != 0)
        return 2;
    while (waitpid(pid, &status, 0) == pid && WIFSTOPPED(status)) {
        int ends = status >> 8 == (SIGTRAP | PTRACE_EVENT_EXIT << 8);
        if (ends)
            fprintf(stderr, "%ld\n", held(pid));
        ptrace(PTRACE_CONT, pid, NULL, (void *)(long)(ends ? 0 : WSTOPSIG(status)));
    }
    return WIFEXITED(status) ? WEXITSTATUS(status) : 2;
}
