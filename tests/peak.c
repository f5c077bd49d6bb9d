/* Runs a command, and writes the maximum of its memory in KB to standard error. Ends with the status of the command.
 *
 * The memory of a process before it becomes another program counts, too. So a small process has to fork it. */
#define _DEFAULT_SOURCE
#include <stdio.h>
#include <sys/resource.h>
#include <sys/wait.h>
#include <unistd.h>

int main(int count, char **words)
{
    if (count < 2) {
        fputs("usage: peak WORD ..\n", stderr);
        return 2;
    }
    pid_t child = fork();
    if (child == 0) {
        execvp(words[1], words + 1);
        perror(words[1]);
        _exit(127);
    }
    int status;
    struct rusage used;
    if (child < 0 || wait4(child, &status, 0, &used) < 0) {
        perror("peak");
        return 127;
    }
    fprintf(stderr, "%ld\n", used.ru_maxrss);
    return WIFEXITED(status) ? WEXITSTATUS(status) : 128 + WTERMSIG(status);
}
