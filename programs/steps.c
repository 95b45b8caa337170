/* Counts the steps of a program on the processor: `steps PROGRAM WORD..` runs it one step at a time and prints the number on descriptor 3.
   The processor stops after each instruction, and after each iteration of a repeated one; the last step ends or faults. */
#include <signal.h>
#include <stdio.h>
#include <stdlib.h>
#include <sys/ptrace.h>
#include <sys/wait.h>
#include <unistd.h>

int main(int count, char **words) {
    if (count < 2)
        return 2;
    pid_t child = fork();
    if (child == 0) {
        ptrace(PTRACE_TRACEME, 0, 0, 0);
        execv(words[1], words + 1);
        _exit(127);
    }
    int status;
    unsigned long long steps = 0;
    waitpid(child, &status, 0);
    while (WIFSTOPPED(status) && WSTOPSIG(status) == SIGTRAP) {
        if (ptrace(PTRACE_SINGLESTEP, child, 0, 0) < 0)
            return 2;
        waitpid(child, &status, 0);
        steps++;
    }
    kill(child, SIGKILL);
    dprintf(3, "%llu\n", steps);
    return 0;
}
