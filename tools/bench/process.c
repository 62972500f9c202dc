/* Runs a program five times, its output put away, and prints the fewest milliseconds of the processor that a run took:
 * process INPUT PROGRAM WORD.. */
#include <fcntl.h>
#include <stdio.h>
#include <stdlib.h>
#include <sys/resource.h>
#include <sys/wait.h>
#include <unistd.h>

static void become(char **words) {
    int input = open(words[1], O_RDONLY), output = open("/dev/null", O_WRONLY);
    if (input < 0 || output < 0 || dup2(input, 0) < 0 || dup2(output, 1) < 0) _exit(127);
    execv(words[2], words + 2);
    _exit(127);
}

static double milliseconds(struct timeval time) { return (double)time.tv_sec * 1e3 + (double)time.tv_usec / 1e3; }

int main(int count, char **words) {
    double best = 1e300;
    for (int run = 0; run < 5; run++) {
        struct rusage used;
        int status;
        pid_t child = count < 3 ? -1 : fork();
        if (child == 0) become(words);
        if (child < 0 || wait4(child, &status, 0, &used) != child || status != 0) {
            fprintf(stderr, "process: the program failed\n");
            return 1;
        }
        double took = milliseconds(used.ru_utime) + milliseconds(used.ru_stime);
        if (took < best) best = took;
    }
    return printf("%.3f\n", best) < 0;
}
