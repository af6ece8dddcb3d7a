/* Copies two files and finds each line end on the way: what every program that reads lines and writes them must do at least.
 *
 *     copy THREADS FORWARD REVERSE FORWARD_COPY REVERSE_COPY
 *
 * At one thread the files are copied piece by piece in turn, at two each by a thread of its own. It prints how many lines there
 * were, so that no compiler leaves the search out. The pieces are small enough for a processor's own cache. */
#define _POSIX_C_SOURCE 200809L
#include <fcntl.h>
#include <pthread.h>
#include <stdio.h>
#include <stdlib.h>
#include <string.h>
#include <unistd.h>

enum { PIECE = 1 << 17 };

/* One file that is copied. */
struct copy {
    const char *from;
    const char *to;
    int input;
    int output;
    long lines;
    char piece[PIECE];
};

static void stop(const char *name) {
    perror(name);
    exit(1);
}

static void open_both(struct copy *copy) {
    copy->input = open(copy->from, O_RDONLY);
    if (copy->input < 0) {
        stop(copy->from);
    }
    copy->output = open(copy->to, O_WRONLY | O_CREAT | O_TRUNC, 0666);
    if (copy->output < 0) {
        stop(copy->to);
    }
}

static void close_both(struct copy *copy) {
    close(copy->input);
    if (close(copy->output) != 0) {
        stop(copy->to);
    }
}

static long count_lines(const char *bytes, size_t length) {
    const char *end = bytes + length;
    long lines = 0;
    while (bytes < end) {
        const char *line_feed = memchr(bytes, '\n', (size_t)(end - bytes));
        if (line_feed == NULL) {
            break;
        }
        lines++;
        bytes = line_feed + 1;
    }
    return lines;
}

static void write_all(struct copy *copy, size_t length) {
    size_t written = 0;
    while (written < length) {
        ssize_t taken = write(copy->output, copy->piece + written, length - written);
        if (taken < 0) {
            stop(copy->to);
        }
        written += (size_t)taken;
    }
}

/* Copies the next piece, and returns whether there was one. */
static int copy_piece(struct copy *copy) {
    ssize_t length = read(copy->input, copy->piece, PIECE);
    if (length < 0) {
        stop(copy->from);
    }
    copy->lines += count_lines(copy->piece, (size_t)length);
    write_all(copy, (size_t)length);
    return length > 0;
}

static void *copy_file(void *copy) {
    while (copy_piece(copy)) {
    }
    return NULL;
}

static void copy_in_turn(struct copy *forward, struct copy *reverse) {
    int has_forward = 1;
    int has_reverse = 1;
    while (has_forward || has_reverse) {
        has_forward = has_forward && copy_piece(forward);
        has_reverse = has_reverse && copy_piece(reverse);
    }
}

static void copy_at_once(struct copy *forward, struct copy *reverse) {
    pthread_t thread;
    if (pthread_create(&thread, NULL, copy_file, reverse) != 0) {
        fputs("copy: no thread\n", stderr);
        exit(1);
    }
    copy_file(forward);
    pthread_join(thread, NULL);
}

int main(int argc, char **argv) {
    static struct copy forward;
    static struct copy reverse;
    int threads = argc == 6 ? atoi(argv[1]) : 0;
    if (threads != 1 && threads != 2) {
        fputs("usage: copy THREADS FORWARD REVERSE FORWARD_COPY REVERSE_COPY, with 1 or 2 threads\n", stderr);
        return 1;
    }
    forward.from = argv[2];
    reverse.from = argv[3];
    forward.to = argv[4];
    reverse.to = argv[5];
    open_both(&forward);
    open_both(&reverse);
    if (threads == 1) {
        copy_in_turn(&forward, &reverse);
    } else {
        copy_at_once(&forward, &reverse);
    }
    close_both(&forward);
    close_both(&reverse);
    printf("lines: %ld\n", forward.lines + reverse.lines);
    return 0;
}
