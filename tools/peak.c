/* peak FILE COMMAND...: runs the command and writes its seconds of processor time,
 * which a busy machine hardly changes, and the peak memory of its largest process,
 * in MB, to FILE. Ends as the command does. */
#include <stdio.h>
#include <sys/resource.h>
#include <sys/wait.h>
#include <unistd.h>

static double seconds(struct timeval t)
{
    return (double)t.tv_sec + (double)t.tv_usec * 1e-6;
}

int main(int count, char **words)
{
    int status = 0;
    struct rusage used;
    pid_t child = count < 3 ? -1 : fork();
    if (child == 0) {
        execvp(words[2], words + 2);
        _exit(127);
    }
    if (child < 0 || waitpid(child, &status, 0) < 0 || getrusage(RUSAGE_CHILDREN, &used) < 0)
        return 2;
    FILE *out = fopen(words[1], "w");
    if (out == NULL)
        return 2;
    fprintf(out, "%.1f %ld\n", seconds(used.ru_utime) + seconds(used.ru_stime), used.ru_maxrss / 1024);
    fclose(out);
    return WIFEXITED(status) ? WEXITSTATUS(status) : 1;
}
