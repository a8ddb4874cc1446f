/* measure FILE COMMAND..: runs the command, and writes to the file the largest resident size, in kB, of a process that it started. */
#define _GNU_SOURCE
#include <stdio.h>
#include <sys/resource.h>
#include <sys/wait.h>
#include <unistd.h>

int main(int count, char **words)
{
    struct rusage used;
    FILE *file;
    pid_t child;
    int status;

    if (count < 3)
        return 2;
    child = fork();
    if (child == 0) {
        execvp(words[2], words + 2);
        _exit(127);
    }
    if (child < 0 || waitpid(child, &status, 0) != child)
        return 2;
    if (getrusage(RUSAGE_CHILDREN, &used) != 0 || (file = fopen(words[1], "w")) == NULL)
        return 2;
    fprintf(file, "%ld\n", used.ru_maxrss);
    if (fclose(file) != 0)
        return 2;
    return WIFEXITED(status) ? WEXITSTATUS(status) : 2;
}
