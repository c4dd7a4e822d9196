/* The limit that the benchmark compares with: a lower bound on the time of only writing the texts of a run.
 *
 * It is given the two texts that a run of the program wrote, its steps and its console, and writes the very same bytes
 * again as a program must that makes them line by line: each line is copied into a buffer of 4,096 bytes, which is
 * written where no other line has room. It reads no job, plans nothing and makes no number. The texts are read before
 * the clock is started, so that reading them counts for nothing. What it tells, on standard error, is the processor
 * time of the writing alone, in seconds.
 *
 * Usage: limit STEPS CONSOLE STEPS_AGAIN, and the console's text goes to standard output. */
#include <fcntl.h>
#include <stdio.h>
#include <stdlib.h>
#include <sys/stat.h>
#include <time.h>
#include <unistd.h>

#define ROOM 4096
#define LONGEST 256 /* of a line, with its end */

struct text {
    char *bytes;
    size_t length;
};

static void fail(const char *what) {
    perror(what);
    exit(1);
}

/* A whole file in memory. */
static struct text text_of(const char *name) {
    struct stat status;
    struct text text;
    int in = open(name, O_RDONLY);
    if (in < 0 || fstat(in, &status) < 0) fail(name);
    text.length = (size_t)status.st_size;
    if (!(text.bytes = malloc(text.length + 1))) fail(name);
    for (size_t at = 0; at < text.length;) {
        ssize_t n = read(in, text.bytes + at, text.length - at);
        if (n <= 0) fail(name);
        at += (size_t)n;
    }
    close(in);
    text.bytes[text.length] = '\n';
    return text;
}

static void flush(int out, const char *buffer, size_t used) {
    for (size_t at = 0; at < used;) {
        ssize_t n = write(out, buffer + at, used - at);
        if (n <= 0) fail("write");
        at += (size_t)n;
    }
}

static void write_lines(struct text text, int out) {
    static char buffer[ROOM];
    const char *next = text.bytes, *end = text.bytes + text.length;
    size_t used = 0;
    while (next < end) {
        if (used > ROOM - LONGEST) {
            flush(out, buffer, used);
            used = 0;
        }
        size_t start = used;
        while ((buffer[used++] = *next++) != '\n')
            if (used - start == LONGEST) break;
    }
    flush(out, buffer, used);
}

static double seconds(void) {
    struct timespec now;
    if (clock_gettime(CLOCK_PROCESS_CPUTIME_ID, &now) < 0) fail("clock");
    return (double)now.tv_sec + (double)now.tv_nsec * 1e-9;
}

int main(int argc, char **argv) {
    if (argc != 4) return 2;
    struct text steps = text_of(argv[1]), console = text_of(argv[2]);
    double before = seconds();
    int out = open(argv[3], O_WRONLY | O_CREAT | O_TRUNC, 0644);
    if (out < 0) fail(argv[3]);
    write_lines(steps, out);
    write_lines(console, STDOUT_FILENO);
    if (close(out) < 0) fail(argv[3]);
    fprintf(stderr, "%.6f\n", seconds() - before);
    return 0;
}
