/* Simulates paired-end reads from a fixed seed, the same bytes on each machine, and writes them as two FASTQ files.
 *
 *     pairs [--bases N | --bases LEAST-MOST] [--bins] [--titles] [--crlf] [--adapters] COUNT FORWARD REVERSE
 *
 *     --bases    the bases of each read (150), or the least and the most, between which each read has a length of its own
 *     --bins     only the scores 2, 12, 23 and 37
 *     --titles   the title once more after `+`
 *     --crlf     lines that end in CR LF
 *     --adapters in each fourth pair the mates read the same short insert, from both ends, and the adapters after it
 *
 * The scores of a read stay high up to some base and fall from there on, with noise; those of reverse reads fall sooner and
 * faster, and some reads are bad from the first base on. A base in about 500 is an N with score 2. Scores are simulated as for
 * 150 bases: in a read of another length the same fall is stretched or compressed. */
#include <stdint.h>
#include <stdio.h>
#include <stdlib.h>
#include <string.h>

enum { MODEL = 150, MOST_BASES = 1048576, HIGH = 39, LOW = 2, SHORTEST_INSERT = 30 };

static const char *const adapters[] = {"AGATCGGAAGAGCACACGTCTGAACTCCAGTCA", "AGATCGGAAGAGCGTCGTGTAGGGAAAGAGTGT"};

/* What the files look like. */
struct form {
    int least; /* bases */
    int most;
    int has_bins;
    int has_titles;
    int has_crlf;
    int has_adapters;
};

struct read {
    int length;
    char bases[MOST_BASES + 1];
    char quality[MOST_BASES + 1];
};

static uint64_t state = 20100416;

/* The next number of splitmix64. */
static uint64_t draw(void) {
    uint64_t z = state += 0x9e3779b97f4a7c15u;
    z = (z ^ (z >> 30)) * 0xbf58476d1ce4e5b9u;
    z = (z ^ (z >> 27)) * 0x94d049bb133111ebu;
    return z ^ (z >> 31);
}

/* A number from `least` on, one of `many`. */
static int draw_from(int least, int many) {
    return least + (int)(draw() % (uint64_t)many);
}

/* The score that replaces all scores of its bin. */
static int bin_of(int score) {
    return score < 3 ? 2 : score < 18 ? 12 : score < 30 ? 23 : 37;
}

/* Simulates one read of mate 1 or 2. */
static void draw_read(struct read *read, const struct form *form, int mate) {
    read->length = form->least < form->most ? draw_from(form->least, form->most - form->least + 1) : form->least;
    int is_bad = draw_from(0, 100) < (mate == 1 ? 3 : 6);
    int from = is_bad ? 0 : draw_from(mate == 1 ? 50 : 20, 110);
    int fall = is_bad ? draw_from(40, 160) : draw_from(mate == 1 ? 10 : 20, 60); /* hundredths of a score for each base */
    for (int i = 0; i < read->length; i++) {
        uint64_t bits = draw();
        int place = i * MODEL / read->length;
        int noise = (int)(bits >> 8 & 3) + (int)(bits >> 16 & 3) - 4;
        int score = HIGH + noise - (place > from ? (place - from) * fall / 100 : 0);
        if (score < LOW) {
            score = LOW;
        }
        read->bases[i] = "ACGT"[bits & 3];
        if ((bits >> 32) % 500 == 0) {
            read->bases[i] = 'N';
            score = LOW;
        }
        read->quality[i] = (char)('!' + (form->has_bins ? bin_of(score) : score));
    }
    read->bases[read->length] = '\0';
    read->quality[read->length] = '\0';
}

static char complement_of(char base) {
    return base == 'A' ? 'T' : base == 'C' ? 'G' : base == 'G' ? 'C' : base == 'T' ? 'A' : base;
}

/* The adapter of a mate after that many bases, as far as the read goes. What was simulated remains after it. */
static void put_adapter(struct read *read, int insert, const char *adapter) {
    for (int i = insert; i < read->length && adapter[i - insert] != '\0'; i++) {
        read->bases[i] = adapter[i - insert];
    }
}

/* Makes both mates read an insert that is shorter than they are. */
static void put_insert(struct read *forward, struct read *reverse) {
    int shorter = forward->length < reverse->length ? forward->length : reverse->length;
    if (shorter <= SHORTEST_INSERT) {
        return;
    }
    int insert = draw_from(SHORTEST_INSERT, shorter - SHORTEST_INSERT);
    for (int i = 0; i < insert; i++) {
        reverse->bases[i] = complement_of(forward->bases[insert - 1 - i]);
    }
    put_adapter(forward, insert, adapters[0]);
    put_adapter(reverse, insert, adapters[1]);
}

static void write_read(FILE *out, const struct form *form, const struct read *read, long number, int mate) {
    char title[100];
    const char *end = form->has_crlf ? "\r\n" : "\n";
    snprintf(title, sizeof title, "SIM:7:FCX19:%ld:%ld:%ld:%ld %d:N:0:ATCCGA", 1 + number / 4000000, 1101 + number / 10000 % 400,
             1000 + number * 7919 % 30000, 1000 + number % 10000 * 3, mate);
    fprintf(out, "@%s%s%s%s+%s%s%s%s", title, end, read->bases, end, form->has_titles ? title : "", end, read->quality, end);
}

static void write_pair(FILE *forward, FILE *reverse, const struct form *form, long number) {
    static struct read mates[2];
    draw_read(&mates[0], form, 1);
    draw_read(&mates[1], form, 2);
    if (form->has_adapters && number % 4 == 0) {
        put_insert(&mates[0], &mates[1]);
    }
    write_read(forward, form, &mates[0], number, 1);
    write_read(reverse, form, &mates[1], number, 2);
}

static FILE *open_output(const char *name) {
    FILE *out = fopen(name, "w");
    if (out == NULL) {
        perror(name);
        exit(1);
    }
    return out;
}

static void close_output(FILE *out, const char *name) {
    if (fclose(out) != 0) {
        perror(name);
        exit(1);
    }
}

static void stop_with_usage(void) {
    fputs("usage: pairs [--bases N | --bases LEAST-MOST] [--bins] [--titles] [--crlf] [--adapters] COUNT FORWARD REVERSE\n", stderr);
    exit(1);
}

/* Takes the numbers of bases from `word`. */
static void read_bases(struct form *form, const char *word) {
    char *rest = NULL;
    long least = strtol(word, &rest, 10);
    long most = *rest == '-' ? strtol(rest + 1, &rest, 10) : least;
    if (*rest != '\0' || least < 1 || most < least || most > MOST_BASES) {
        stop_with_usage();
    }
    form->least = (int)least;
    form->most = (int)most;
}

/* Takes the options, and returns the place of the first argument after them. */
static int read_options(struct form *form, int argc, char **argv) {
    int i = 1;
    for (; i < argc && argv[i][0] == '-'; i++) {
        if (strcmp(argv[i], "--bins") == 0) {
            form->has_bins = 1;
        } else if (strcmp(argv[i], "--titles") == 0) {
            form->has_titles = 1;
        } else if (strcmp(argv[i], "--crlf") == 0) {
            form->has_crlf = 1;
        } else if (strcmp(argv[i], "--adapters") == 0) {
            form->has_adapters = 1;
        } else if (strcmp(argv[i], "--bases") == 0 && i + 1 < argc) {
            read_bases(form, argv[++i]);
        } else {
            stop_with_usage();
        }
    }
    return i;
}

int main(int argc, char **argv) {
    struct form form = {.least = MODEL, .most = MODEL};
    int first = read_options(&form, argc, argv);
    long count = argc == first + 3 ? strtol(argv[first], NULL, 10) : 0;
    if (count < 1) {
        stop_with_usage();
    }
    FILE *forward = open_output(argv[first + 1]);
    FILE *reverse = open_output(argv[first + 2]);
    for (long number = 0; number < count; number++) {
        write_pair(forward, reverse, &form, number);
    }
    close_output(forward, argv[first + 1]);
    close_output(reverse, argv[first + 2]);
    return 0;
}
