/* Asks one question after another through a named pipe, each when the one before is answered: asker COUNT PIPE PROGRAM WORD..
 *
 * The program gets the name of the pipe as its last word. A question is a request and a line that says `sync`, in one write;
 * its answer ends with the line that has `"sync"` in it. Prints the nanoseconds of the median answer and of the one that 99
 * of 100 are no slower than. */
#include <fcntl.h>
#include <stdio.h>
#include <stdlib.h>
#include <string.h>
#include <sys/stat.h>
#include <sys/wait.h>
#include <time.h>
#include <unistd.h>

static const char QUESTION[] = "{\"url\":\"https://cdn.example.com/assets/app.js\",\"type\":\"script\","
                               "\"initiator\":\"https://www.example.org\"}\n{\"cmd\":\"sync\"}\n";

static void fail(const char *what) {
    perror(what);
    exit(1);
}

static long now(void) {
    struct timespec time;
    clock_gettime(CLOCK_MONOTONIC, &time);
    return time.tv_sec * 1000000000L + time.tv_nsec;
}

/* Reads until the answer has its last line. */
static void read_answer(int from) {
    static char text[1 << 16];
    size_t length = 0;
    for (;;) {
        ssize_t more = read(from, text + length, sizeof text - 1 - length);
        if (more <= 0)
            fail("read");
        length += (size_t)more;
        text[length] = 0;
        char *last = strstr(text, "\"sync\"");
        if (last && strchr(last, '\n'))
            return;
    }
}

static int by_size(const void *a, const void *b) {
    long x = *(const long *)a, y = *(const long *)b;
    return (x > y) - (x < y);
}

int main(int count, char **words) {
    if (count < 4)
        return 2;
    long questions = atol(words[1]);
    const char *name = words[2];
    int answers[2];
    if (mkfifo(name, 0600) || pipe(answers))
        fail(name);
    pid_t child = fork();
    if (child < 0)
        fail("fork");
    if (child == 0) {
        dup2(answers[1], 1);
        close(answers[0]);
        close(answers[1]);
        execv(words[3], words + 3);
        fail(words[3]);
    }
    close(answers[1]);
    int to = open(name, O_WRONLY);
    long *took = calloc((size_t)questions, sizeof *took);
    if (to < 0 || !took)
        fail(name);
    for (long at = 0; at < questions; at++) {
        long begun = now();
        if (write(to, QUESTION, sizeof QUESTION - 1) != sizeof QUESTION - 1)
            fail("write");
        read_answer(answers[0]);
        took[at] = now() - begun;
    }
    close(to);
    int status;
    waitpid(child, &status, 0);
    unlink(name);
    qsort(took, (size_t)questions, sizeof *took, by_size);
    printf("%ld %ld\n", took[questions / 2], took[questions * 99 / 100]);
    return status != 0;
}
