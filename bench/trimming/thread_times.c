/* Runs a command, and writes the processor seconds of each of its threads.
 *
 *     thread_times FILE COMMAND [WORD]..
 *
 * FILE has a line for each thread, in the order in which they were made, the first one first: its processor seconds, and how many
 * of them were the system's. The command is traced, but stops only when it makes a thread and when a thread ends, and the
 * times of that thread are read then. The system's share is counted in ticks of the clock, mostly of 10 milliseconds. Linux
 * only. */
#define _GNU_SOURCE
#include <errno.h>
#include <stdio.h>
#include <stdlib.h>
#include <string.h>
#include <sys/ptrace.h>
#include <sys/wait.h>
#include <unistd.h>

enum { MOST_THREADS = 256 };

struct thread {
    pid_t id;
    int has_ended;
    double seconds;
    double system_seconds;
};

static struct thread threads[MOST_THREADS];
static int thread_count;

static void stop(const char *what) {
    perror(what);
    exit(1);
}

/* The thread of this number, which is added if it isn't there. */
static struct thread *thread_of(pid_t id) {
    for (int i = 0; i < thread_count; i++) {
        if (threads[i].id == id) {
            return &threads[i];
        }
    }
    if (thread_count == MOST_THREADS) {
        fputs("thread_times: too many threads\n", stderr);
        exit(1);
    }
    threads[thread_count].id = id;
    return &threads[thread_count++];
}

/* Reads the first bytes of a thread's file below /proc as a text. */
static void read_file_of(pid_t id, const char *name, char *text, size_t room) {
    char path[64];
    snprintf(path, sizeof path, "/proc/%d/task/%d/%s", (int)id, (int)id, name);
    FILE *file = fopen(path, "r");
    if (file == NULL) {
        stop(path);
    }
    text[fread(text, 1, room - 1, file)] = '\0';
    fclose(file);
}

/* Reads the times of a thread that is about to end. */
static void read_times(struct thread *thread) {
    char text[1024];
    unsigned long user = 0;
    unsigned long system = 0;
    unsigned long long nanoseconds = 0;
    read_file_of(thread->id, "stat", text, sizeof text);
    const char *behind_name = strrchr(text, ')');
    if (behind_name == NULL || sscanf(behind_name, ") %*c %*d %*d %*d %*d %*d %*u %*u %*u %*u %*u %lu %lu", &user, &system) != 2) {
        stop("stat");
    }
    read_file_of(thread->id, "schedstat", text, sizeof text);
    if (sscanf(text, "%llu", &nanoseconds) != 1) {
        stop("schedstat");
    }
    thread->has_ended = 1;
    thread->seconds = (double)nanoseconds / 1e9;
    thread->system_seconds = (double)system / (double)sysconf(_SC_CLK_TCK);
}

/* Starts the command, which waits until it is traced. */
static pid_t start(char **words) {
    int gate[2];
    char byte = 0;
    if (pipe(gate) != 0) {
        stop("pipe");
    }
    pid_t child = fork();
    if (child < 0) {
        stop("fork");
    }
    if (child == 0) {
        close(gate[1]);
        if (read(gate[0], &byte, 1) != 1) {
            _exit(1);
        }
        close(gate[0]);
        execvp(words[0], words);
        stop(words[0]);
    }
    close(gate[0]);
    if (ptrace(PTRACE_SEIZE, child, NULL, PTRACE_O_TRACECLONE | PTRACE_O_TRACEEXIT | PTRACE_O_EXITKILL) != 0) {
        stop("ptrace");
    }
    if (write(gate[1], &byte, 1) != 1) {
        stop("pipe");
    }
    close(gate[1]);
    return child;
}

/* Handles a thread that has stopped, and continues it. */
static void go_on(pid_t id, int status) {
    struct thread *thread = thread_of(id);
    int event = status >> 16;
    unsigned long made = 0;
    if (event == PTRACE_EVENT_CLONE && ptrace(PTRACE_GETEVENTMSG, id, NULL, &made) == 0) {
        thread_of((pid_t)made);
    }
    if (event == PTRACE_EVENT_EXIT) {
        read_times(thread);
    }
    if (ptrace(PTRACE_CONT, id, NULL, event == 0 ? WSTOPSIG(status) : 0) != 0 && errno != ESRCH) {
        stop("ptrace");
    }
}

/* Waits until all threads have ended, and returns the status of the command. */
static int attend(pid_t child) {
    int ended = 1;
    int status = 0;
    pid_t id;
    thread_of(child);
    while ((id = waitpid(-1, &status, __WALL)) > 0) {
        if (WIFSTOPPED(status)) {
            go_on(id, status);
        } else if (id == child) {
            ended = WIFEXITED(status) ? WEXITSTATUS(status) : 128 + WTERMSIG(status);
        }
    }
    return ended;
}

int main(int argc, char **argv) {
    if (argc < 3) {
        fputs("usage: thread_times FILE COMMAND [WORD]..\n", stderr);
        return 1;
    }
    int status = attend(start(argv + 2));
    FILE *out = fopen(argv[1], "w");
    if (out == NULL) {
        stop(argv[1]);
    }
    for (int i = 0; i < thread_count; i++) {
        if (!threads[i].has_ended) {
            fputs("thread_times: a thread ended unseen\n", stderr);
            return 1;
        }
        fprintf(out, "%.4f %.2f\n", threads[i].seconds, threads[i].system_seconds);
    }
    if (fclose(out) != 0) {
        stop(argv[1]);
    }
    return status;
}
