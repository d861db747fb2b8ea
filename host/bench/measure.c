/* measure FILE PROGRAM [ARGUMENT ..]: runs a program and adds a line to the file: its user time in microseconds, a tab, and its peak memory
 * in kibibytes. Standard input and output are the program's; the status is the program's too. */
#define _DEFAULT_SOURCE
#include <stdio.h>
#include <sys/resource.h>
#include <sys/wait.h>
#include <unistd.h>

/* Runs the program to its end; -1 where that fails. */
static int run_program(char **program, struct rusage *used) {
    int status;
    pid_t child = fork();
    if (child == 0) {
        execvp(program[0], program);
        _exit(127);
    }
    if (child < 0 || wait4(child, &status, 0, used) != child) return -1;
    return WIFEXITED(status) ? WEXITSTATUS(status) : -1;
}

int main(int count, char **words) {
    struct rusage used;
    int status = count < 3 ? -1 : run_program(words + 2, &used);
    FILE *file = status < 0 ? NULL : fopen(words[1], "a");
    if (!file) return 126;
    fprintf(file, "%lld\t%ld\n", (long long)used.ru_utime.tv_sec * 1000000 + used.ru_utime.tv_usec, used.ru_maxrss);
    return fclose(file) == 0 ? status : 126;
}
