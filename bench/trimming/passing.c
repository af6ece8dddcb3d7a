/* Passes pairs on as the trimmer's threads do, and decides nothing: what any program must do at least that passes blocks of
 * pairs from a thread that reads, through threads that trim, to one that writes.
 *
 *     passing THREADS FORWARD REVERSE FORWARD_COPY REVERSE_COPY
 *
 * One thread reads both files by 64 KiB, finds each line end, and copies title, sequence and quality of 1,024 pairs one after the
 * other into a block. Block n goes to thread n modulo THREADS, which copies each record into the text of its side. The calling
 * thread writes the texts, block for block. Four blocks and four texts wait for each thread, and used ones go back to be used again.
 * No byte is checked, no name compared, no score read, no line logged, and every record is taken to have four lines. It prints how
 * many pairs there were. */
#define _POSIX_C_SOURCE 200809L
#include <fcntl.h>
#include <pthread.h>
#include <stdio.h>
#include <stdlib.h>
#include <string.h>
#include <unistd.h>

enum { CHUNK = 1 << 16, PAIRS = 1024, DEPTH = 4, MOST_THREADS = 64, SIDES = 2 };

static void stop(const char *what) {
    perror(what);
    exit(1);
}

/* Bytes that grow. */
struct bytes {
    char *at;
    size_t length;
    size_t room;
};

static void make_room(struct bytes *bytes, size_t more) {
    if (bytes->length + more > bytes->room) {
        bytes->room = 2 * (bytes->length + more);
        bytes->at = realloc(bytes->at, bytes->room);
        if (bytes->at == NULL) {
            stop("memory");
        }
    }
}

static void append(struct bytes *bytes, const char *from, size_t length) {
    memcpy(bytes->at + bytes->length, from, length);
    bytes->length += length;
}

/* The bytes of a block's records, and how many pairs they are. */
struct block {
    struct bytes records;
    long pairs;
};

/* The texts of a block, one a side. */
struct texts {
    struct bytes side[SIDES];
    long pairs;
};

/* A lane of pointers from one thread to one other. A null pointer is its mark. */
struct lane {
    pthread_mutex_t lock;
    pthread_cond_t moved;
    void *items[DEPTH + 2];
    int first;
    int held;
    int depth;
};

static void make_lane(struct lane *lane, int depth) {
    pthread_mutex_init(&lane->lock, NULL);
    pthread_cond_init(&lane->moved, NULL);
    lane->first = 0;
    lane->held = 0;
    lane->depth = depth;
}

static void put(struct lane *lane, void *item) {
    pthread_mutex_lock(&lane->lock);
    while (lane->held == lane->depth) {
        pthread_cond_wait(&lane->moved, &lane->lock);
    }
    lane->items[(lane->first + lane->held) % lane->depth] = item;
    lane->held++;
    pthread_cond_signal(&lane->moved);
    pthread_mutex_unlock(&lane->lock);
}

static void *pop(struct lane *lane) {
    void *item = lane->items[lane->first];
    lane->first = (lane->first + 1) % lane->depth;
    lane->held--;
    pthread_cond_signal(&lane->moved);
    return item;
}

static void *take(struct lane *lane) {
    pthread_mutex_lock(&lane->lock);
    while (lane->held == 0) {
        pthread_cond_wait(&lane->moved, &lane->lock);
    }
    void *item = pop(lane);
    pthread_mutex_unlock(&lane->lock);
    return item;
}

/* What came back to be used again, or zeroed memory of this size. */
static void *take_used(struct lane *lane, size_t size) {
    pthread_mutex_lock(&lane->lock);
    void *item = lane->held > 0 ? pop(lane) : NULL;
    pthread_mutex_unlock(&lane->lock);
    if (item == NULL) {
        item = calloc(1, size);
    }
    if (item == NULL) {
        stop("memory");
    }
    return item;
}

/* A thread that trims, with its four lanes. The return lanes have room for two more, so that nothing is dropped. */
struct worker {
    struct lane blocks;
    struct lane texts;
    struct lane used_blocks;
    struct lane used_texts;
    pthread_t thread;
};

static struct worker workers[MOST_THREADS];
static int worker_count;

/* An input, with the bytes that were read and not used up. */
struct input {
    const char *name;
    int file;
    char *bytes;
    size_t start;
    size_t end;
    size_t room;
};

static struct input inputs[SIDES];

static void open_input(struct input *input, const char *name) {
    input->name = name;
    input->file = open(name, O_RDONLY);
    input->room = 4 * CHUNK;
    input->bytes = malloc(input->room);
    if (input->file < 0 || input->bytes == NULL) {
        stop(name);
    }
}

/* Reads another chunk, and returns whether there was any. */
static int read_more(struct input *input) {
    if (input->start > 0) {
        memmove(input->bytes, input->bytes + input->start, input->end - input->start);
        input->end -= input->start;
        input->start = 0;
    }
    if (input->room - input->end < CHUNK) {
        fprintf(stderr, "%s: a record is too long\n", input->name);
        exit(1);
    }
    ssize_t length = read(input->file, input->bytes + input->end, CHUNK);
    if (length < 0) {
        stop(input->name);
    }
    input->end += (size_t)length;
    return length > 0;
}

/* Where each of four lines begins, and where the last one ends. */
struct record {
    size_t line[5];
};

/* Finds the next record among the bytes in hand. */
static int is_in_hand(const struct input *input, struct record *record) {
    size_t at = input->start;
    for (int line = 0; line < 4; line++) {
        record->line[line] = at;
        const char *line_feed = memchr(input->bytes + at, '\n', input->end - at);
        if (line_feed == NULL) {
            return 0;
        }
        at = (size_t)(line_feed - input->bytes) + 1;
    }
    record->line[4] = at;
    return 1;
}

static int find_record(struct input *input, struct record *record) {
    while (!is_in_hand(input, record)) {
        if (!read_more(input)) {
            return 0;
        }
    }
    return 1;
}

/* Packs a record: the length of its title and of its sequence, then title, sequence and quality. */
static void pack(struct bytes *records, struct input *input, const struct record *record) {
    unsigned lengths[2] = {(unsigned)(record->line[1] - record->line[0] - 2), (unsigned)(record->line[2] - record->line[1] - 1)};
    make_room(records, sizeof lengths + lengths[0] + 2 * (size_t)lengths[1]);
    append(records, (const char *)lengths, sizeof lengths);
    append(records, input->bytes + record->line[0] + 1, lengths[0]);
    append(records, input->bytes + record->line[1], lengths[1]);
    append(records, input->bytes + record->line[3], lengths[1]);
    input->start = record->line[4];
}

static void fill(struct block *block) {
    struct record record[SIDES];
    block->records.length = 0;
    block->pairs = 0;
    while (block->pairs < PAIRS && find_record(&inputs[0], &record[0]) && find_record(&inputs[1], &record[1])) {
        for (int side = 0; side < SIDES; side++) {
            pack(&block->records, &inputs[side], &record[side]);
        }
        block->pairs++;
    }
}

static void *deal(void *none) {
    for (long number = 0;; number++) {
        struct worker *worker = &workers[number % worker_count];
        struct block *block = take_used(&worker->used_blocks, sizeof *block);
        fill(block);
        if (block->pairs == 0) {
            break;
        }
        put(&worker->blocks, block);
    }
    for (int number = 0; number < worker_count; number++) {
        put(&workers[number].blocks, NULL);
    }
    return none;
}

/* Writes the record at this place into a text, and returns where the next one begins. */
static const char *unpack(struct bytes *text, const char *at) {
    unsigned lengths[2];
    memcpy(lengths, at, sizeof lengths);
    const char *title = at + sizeof lengths;
    const char *sequence = title + lengths[0];
    const char *quality = sequence + lengths[1];
    make_room(text, lengths[0] + 2 * (size_t)lengths[1] + 6);
    append(text, "@", 1);
    append(text, title, lengths[0]);
    append(text, "\n", 1);
    append(text, sequence, lengths[1]);
    append(text, "\n+\n", 3);
    append(text, quality, lengths[1]);
    append(text, "\n", 1);
    return quality + lengths[1];
}

static void pass(const struct block *block, struct texts *texts) {
    const char *at = block->records.at;
    texts->side[0].length = 0;
    texts->side[1].length = 0;
    texts->pairs = block->pairs;
    for (long pair = 0; pair < block->pairs; pair++) {
        at = unpack(&texts->side[0], at);
        at = unpack(&texts->side[1], at);
    }
}

static void *work(void *argument) {
    struct worker *worker = argument;
    struct block *block;
    while ((block = take(&worker->blocks)) != NULL) {
        struct texts *texts = take_used(&worker->used_texts, sizeof *texts);
        pass(block, texts);
        put(&worker->used_blocks, block);
        put(&worker->texts, texts);
    }
    put(&worker->texts, NULL);
    return NULL;
}

static void write_all(int file, const char *name, const struct bytes *bytes) {
    size_t written = 0;
    while (written < bytes->length) {
        ssize_t taken = write(file, bytes->at + written, bytes->length - written);
        if (taken < 0) {
            stop(name);
        }
        written += (size_t)taken;
    }
}

static long collect(const int *files, char **names) {
    long pairs = 0;
    for (long number = 0;; number++) {
        struct worker *worker = &workers[number % worker_count];
        struct texts *texts = take(&worker->texts);
        if (texts == NULL) {
            return pairs;
        }
        for (int side = 0; side < SIDES; side++) {
            write_all(files[side], names[side], &texts->side[side]);
        }
        pairs += texts->pairs;
        put(&worker->used_texts, texts);
    }
}

static void start(pthread_t *thread, void *(*body)(void *), void *argument) {
    if (pthread_create(thread, NULL, body, argument) != 0) {
        fputs("passing: no thread\n", stderr);
        exit(1);
    }
}

int main(int argc, char **argv) {
    int files[SIDES];
    pthread_t dealer;
    worker_count = argc == 6 ? atoi(argv[1]) : 0;
    if (worker_count < 1 || worker_count > MOST_THREADS) {
        fputs("usage: passing THREADS FORWARD REVERSE FORWARD_COPY REVERSE_COPY, with 1 to 64 threads\n", stderr);
        return 1;
    }
    for (int side = 0; side < SIDES; side++) {
        open_input(&inputs[side], argv[2 + side]);
        files[side] = open(argv[4 + side], O_WRONLY | O_CREAT | O_TRUNC, 0666);
        if (files[side] < 0) {
            stop(argv[4 + side]);
        }
    }
    for (int number = 0; number < worker_count; number++) {
        struct worker *worker = &workers[number];
        make_lane(&worker->blocks, DEPTH);
        make_lane(&worker->texts, DEPTH);
        make_lane(&worker->used_blocks, DEPTH + 2);
        make_lane(&worker->used_texts, DEPTH + 2);
        start(&worker->thread, work, worker);
    }
    start(&dealer, deal, NULL);
    long pairs = collect(files, argv + 4);
    pthread_join(dealer, NULL);
    for (int number = 0; number < worker_count; number++) {
        pthread_join(workers[number].thread, NULL);
    }
    for (int side = 0; side < SIDES; side++) {
        if (close(files[side]) != 0) {
            stop(argv[4 + side]);
        }
    }
    printf("pairs: %ld\n", pairs);
    return 0;
}
