/* run MODEL SEED STEPS: runs a model by timed steps and prints the run as a script for the program `calls`: the text, then for each step
 * the waiting draws that it used and its draw, and after the text and each step a `clock` and a `state`, so that `calls` prints the time
 * of each step before its state. The run ends after STEPS steps or when nothing can happen. The draws come from a plain generator: a seed
 * gives the same run everywhere. */
#include <errno.h>
#include <inttypes.h>
#include <stdio.h>
#include <stdlib.h>
#include <string.h>

#include "matgravel.h"

static uint8_t text[16385]; /* one byte more than a text may have: a longer file is refused with 2 */
static uint8_t model[MATGRAVEL_MODEL];
static int64_t state[MATGRAVEL_STATE];
static int64_t saves[MATGRAVEL_SAVES];
static int64_t search[MATGRAVEL_SEARCH];
static uint64_t listing[MATGRAVEL_LISTING];
static uint16_t waiting[256]; /* a step uses about 4.3 of them; that 256 are too few does not happen with an even generator */
static matgravel_clock now;

/* SplitMix64. */
static uint64_t next_number(uint64_t *seed) {
    uint64_t z = *seed += UINT64_C(0x9E3779B97F4A7C15);
    z = (z ^ (z >> 30)) * UINT64_C(0xBF58476D1CE4E5B9);
    z = (z ^ (z >> 27)) * UINT64_C(0x94D049BB133111EB);
    return z ^ (z >> 31);
}

/* Evenly from 0 to total - 1: numbers past the last whole multiple of the total are passed over. */
static uint64_t draw_below(uint64_t total, uint64_t *seed) {
    uint64_t number, past = UINT64_MAX - UINT64_MAX % total;
    do number = next_number(seed);
    while (number >= past);
    return number % total;
}

/* Each number of the generator gives four waiting draws. */
static void draw_waiting(uint64_t *seed) {
    for (size_t i = 0; i < sizeof waiting / sizeof *waiting; i += 4) {
        uint64_t number = next_number(seed);
        for (size_t part = 0; part < 4; part++) waiting[i + part] = (uint16_t)(number >> 16 * part);
    }
}

/* The lines of a timed step that used so many waiting draws. */
static void print_step(uint64_t used, uint64_t draw) {
    for (uint64_t i = 0; i < used; i++) printf("wait %" PRIu16 "\n", waiting[i]);
    printf("time %" PRIu64 "\nclock\nstate\n", draw);
}

/* Says on standard error what was refused, and where: of a text by line and column, both from 1. */
static int refused(const char *name, matgravel_answer a) {
    uint64_t line = 1, column = 1;
    for (uint64_t i = 0; i < a.place && i < sizeof text; i++) {
        line += text[i] == '\n';
        column = text[i] == '\n' ? 1 : column + 1;
    }
    if ((a.number >= 2 && a.number <= 10) || a.number == 29)
        fprintf(stderr, "%s:%" PRIu64 ":%" PRIu64 ": ", name, line, column);
    else if (a.number == 12)
        fprintf(stderr, "%s: process %" PRIu64 ", branch %" PRIu64 ": ", name, a.place, a.branch);
    else
        fprintf(stderr, "%s: ", name);
    fprintf(stderr, "refused %" PRIu64 " (docs/USING.md, Refusals)\n", a.number);
    return 1;
}

/* A whole number, and nothing after it. */
static int read_number(const char *word, uint64_t *number) {
    char *end;
    errno = 0;
    *number = strtoull(word, &end, 10);
    if (errno == 0 && *word >= '0' && *word <= '9' && *end == 0) return 1;
    fprintf(stderr, "%s: this is no whole number\n", word);
    return 0;
}

/* Reads the text. Returns 0, with a message, where there is none. */
static int read_text(const char *name, size_t *size) {
    FILE *file = fopen(name, "rb");
    if (file != NULL) *size = fread(text, 1, sizeof text, file);
    int read = file != NULL && !ferror(file);
    if (!read) fprintf(stderr, "%s: %s\n", name, strerror(errno));
    if (file != NULL) fclose(file);
    return read;
}

int main(int words, char **word) {
    uint64_t seed, steps;
    size_t size;
    if (words != 4) {
        fprintf(stderr, "run MODEL SEED STEPS\n");
        return 2;
    }
    if (!read_text(word[1], &size) || !read_number(word[2], &seed) || !read_number(word[3], &steps)) return 2;

    matgravel_answer a = matgravel_open(text, size, model, MATGRAVEL_MODEL, state, MATGRAVEL_STATE, saves, MATGRAVEL_SAVES,
                                        search, MATGRAVEL_SEARCH, &now);
    if (a.number != 0) return refused(word[1], a);
    printf("open %zu\n", size);
    fwrite(text, 1, size, stdout);
    printf("\nclock\nstate\n");
    for (uint64_t taken = 0; taken < steps; taken++) {
        a = matgravel_list(model, MATGRAVEL_MODEL, state, MATGRAVEL_STATE, listing, MATGRAVEL_LISTING);
        if (a.number != 0) return refused(word[1], a);
        if (a.total == 0) break;
        uint64_t draw = draw_below(a.total, &seed), before = now.draws;
        draw_waiting(&seed);
        a = matgravel_timed_step(model, MATGRAVEL_MODEL, state, MATGRAVEL_STATE, listing, MATGRAVEL_LISTING, waiting,
                                 sizeof waiting / sizeof *waiting, draw, &now);
        if (a.number != 0) return refused(word[1], a);
        print_step(now.draws - before, draw);
    }
    return 0;
}
