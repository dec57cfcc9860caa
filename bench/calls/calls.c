/*
 * calls HOW FILE LINES WORD..: answers a file of lines again and again by calls of so many lines each, and prints the
 * nanoseconds that a line takes, the least of the rounds. HOW is `words`, or `handle`, which reads the words once, or `moments`,
 * which does too, and has numbers in place of texts.
 */
#define _POSIX_C_SOURCE 199309L

#include <instants.h>

#include <stdio.h>
#include <stdlib.h>
#include <string.h>
#include <time.h>

/* Rounds at least, and nanoseconds in all. */
enum { ROUNDS = 3 };
static const double BUDGET = 3e9;

static double now(void)
{
    struct timespec at;
    clock_gettime(CLOCK_PROCESS_CPUTIME_ID, &at);
    return (double)at.tv_sec * 1e9 + (double)at.tv_nsec;
}

/* The first so many bytes of a file. */
static uint8_t *read_file(const char *name, size_t *len)
{
    FILE *file = fopen(name, "rb");
    if (!file || fseek(file, 0, SEEK_END))
        return NULL;
    *len = (size_t)ftell(file);
    rewind(file);
    uint8_t *bytes = malloc(*len + 1);
    if (!bytes || fread(bytes, 1, *len, file) != *len)
        return NULL;
    fclose(file);
    return bytes;
}

/* The places behind each so many lines, and behind the last one; how many there are goes into `count`. */
static size_t *cuts(const uint8_t *bytes, size_t len, size_t lines, size_t *count)
{
    size_t *places = malloc((len + 1) * sizeof *places), feeds = 0;
    *count = 0;
    for (size_t at = 0; places && at < len; at++) {
        feeds += bytes[at] == '\n';
        if (bytes[at] == '\n' && (feeds % lines == 0 || at + 1 == len))
            places[(*count)++] = at + 1;
    }
    return places;
}

/* What is answered, and by which words; by a handle on them where it is open. */
struct run {
    const char *words;
    struct instants_handle handle;
    const uint8_t *input;
    const size_t *places;
    size_t count;
    uint8_t *output;
    size_t room;
    struct instants_moment *moments; /* for so many lines, where numbers are asked for */
    size_t entries;
};

/* Answers some of the input, and returns the status. */
static uint8_t answer(const struct run *run, const uint8_t *input, size_t len)
{
    size_t written;
    if (run->moments)
        return instants_answer_moments(run->handle.at, input, len, run->moments, run->entries, &written);
    if (run->handle.at)
        return instants_answer(run->handle.at, input, len, run->output, run->room, &written);
    return instants_answer_lines(run->words, strlen(run->words), input, len, run->output, run->room, &written);
}

/* The nanoseconds that all calls take, or a negative number where one fails. */
static double answer_all(const struct run *run)
{
    double began = now();
    for (size_t at = 0, start = 0; at < run->count; start = run->places[at++]) {
        if (answer(run, run->input + start, run->places[at] - start))
            return -1;
    }
    return now() - began;
}

int main(int count, char **arguments)
{
    static char words[4096];
    size_t len, lines = 0, lines_a_call = count > 4 ? strtoul(arguments[3], NULL, 10) : 0;
    uint8_t *input = lines_a_call ? read_file(arguments[2], &len) : NULL;
    if (!input)
        return 2;
    for (int at = 4; at < count; at++)
        snprintf(words + strlen(words), sizeof words - strlen(words), "%s%s", at > 4 ? "\n" : "", arguments[at]);
    for (size_t at = 0; at < len; at++)
        lines += input[at] == '\n';
    size_t room = INSTANTS_ROOM(lines_a_call);
    struct run run = {words, {0}, input, NULL, 0, malloc(room), room, NULL, lines_a_call + 1};
    run.places = cuts(input, len, lines_a_call, &run.count);
    if (!strcmp(arguments[1], "moments"))
        run.moments = malloc(run.entries * sizeof *run.moments);
    if (strcmp(arguments[1], "words") && instants_open(words, strlen(words), &run.handle))
        return 1;
    double least = run.output && run.places ? answer_all(&run) : -1, spent = least;
    for (int round = 1; least >= 0 && (round < ROUNDS || spent < BUDGET); round++) {
        double taken = answer_all(&run);
        least = taken < least ? taken : least;
        spent += taken;
    }
    printf("%.1f\n", least / (double)lines);
    if (run.handle.at)
        instants_close(run.handle.at);
    return least < 0;
}
