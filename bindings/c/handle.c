/*
 * Opens handles, answers lines by them from four threads at once, and closes them. Prints what failed, and ends with status 1
 * if anything did.
 *
 *     handle          tries the calls
 *     handle CALLS    prints instead how many nanoseconds a call of one line takes, with a handle and without one
 */
#define _POSIX_C_SOURCE 199309L

#include <instants.h>

#include <pthread.h>
#include <stdbool.h>
#include <stdio.h>
#include <stdlib.h>
#include <string.h>
#include <time.h>

#define LINE "2021-01-02T04:04:05+01:00\n"
#define ANSWER "2021-01-02T03:04:05.000000000Z\n"
#define DESCRIPTION "[year]-[month]-[day]T[hour]:[minute]:[second][offset_hour sign:mandatory]:[offset_minute]"

enum { THREADS = 4, ROUNDS = 200 };

/* Words that read the line. */
static const char *const readers[] = {
    "+00:00\n-\n100\nrfc3339",
    "+00:00\n-\n100\niso8601",
    "+00:00\n-\n100\nv1\n" DESCRIPTION,
    "+00:00\n-\n100\nv2\n" DESCRIPTION "\nrfc2822",
    "+00:00\n-\n100\nv3\n" DESCRIPTION,
    "+00:00\n-\n100\nstrftime\n%FT%T%z\nrfc3339",
};

static bool has_failed = false;

static void tell(const char *what, bool is_well)
{
    if (is_well)
        return;
    printf("FAILED: %s\n", what);
    has_failed = true;
}

/* Whether an input is answered so in room for so many bytes, and nothing after them is written. */
static bool is_answered(const void *at, const char *input, size_t room, uint8_t status, const char *answers)
{
    uint8_t output[100];
    size_t written = 12345, due = strlen(answers);
    memset(output, '.', sizeof output);
    bool is_well = instants_answer(at, input, strlen(input), output, room, &written) == status && written == due &&
                   !memcmp(output, answers, due);
    for (size_t place = due; place < sizeof output; place++)
        is_well = is_well && output[place] == '.';
    return is_well;
}

/* Answers lines by a handle that other threads have too. */
static void *answer_often(void *at)
{
    for (int round = 0; round < ROUNDS; round++) {
        if (!is_answered(at, LINE, 100, INSTANTS_OK, ANSWER) || !is_answered(at, LINE LINE, 62, INSTANTS_OK, ANSWER ANSWER) ||
            !is_answered(at, LINE, 30, INSTANTS_FAILED, "2021-01-02T03:04:05.000000000Z"))
            return at;
    }
    return NULL;
}

/* Whether four threads are answered by one handle. */
static bool is_shared(void *at)
{
    pthread_t threads[THREADS];
    bool is_well = true;
    int count = 0;
    while (count < THREADS && !pthread_create(&threads[count], NULL, answer_often, at))
        count++;
    for (int thread = 0; thread < count; thread++) {
        void *failed = at;
        pthread_join(threads[thread], &failed);
        is_well = is_well && !failed;
    }
    return is_well && count == THREADS;
}

static void try_words(const char *words)
{
    struct instants_handle handle = {0};
    if (instants_open(words, strlen(words), &handle) != INSTANTS_OK) {
        tell(words, false);
        return;
    }
    tell(words, handle.at && is_shared(handle.at));
    instants_close(handle.at);
}

/* Early ends by one handle: no room, no lines, a line that is too long, one without a line feed. */
static void try_ends(void)
{
    struct instants_handle handle = {0};
    const char words[] = "+00:00\n-\n25\nrfc3339";
    if (instants_open(words, strlen(words), &handle) != INSTANTS_OK) {
        tell("a handle for early ends", false);
        return;
    }
    tell("no room", is_answered(handle.at, LINE, 0, INSTANTS_FAILED, ""));
    tell("no lines", is_answered(handle.at, "", 0, INSTANTS_OK, ""));
    tell("an empty line", is_answered(handle.at, "\n", 17, INSTANTS_OK, "! component year\n"));
    tell("a line that is too long", is_answered(handle.at, "9" LINE, 100, INSTANTS_OK, "! long\n"));
    tell("no line feed", is_answered(handle.at, "2021-01-02T04:04:05+01:00", 31, INSTANTS_OK, ANSWER));
    tell("the second line is cut", is_answered(handle.at, LINE "x\n", 33, INSTANTS_FAILED, ANSWER "! "));
    instants_close(handle.at);
}

/* Words that are refused leave a handle as it is. */
static void try_refused(const char *words, uint8_t status)
{
    struct instants_handle handle = {0};
    tell(words, instants_open(words, strlen(words), &handle) == status && !handle.at);
}

/* Many handles at once, each with words of its own. */
static void try_many(void)
{
    enum { MANY = 20 };
    struct instants_handle handles[MANY] = {{0}};
    size_t count = sizeof readers / sizeof *readers;
    for (size_t at = 0; at < MANY; at++)
        tell("one of many opens", instants_open(readers[at % count], strlen(readers[at % count]), &handles[at]) == INSTANTS_OK);
    for (size_t at = 0; at < MANY; at += 2)
        instants_close(handles[at].at);
    for (size_t at = 1; at < MANY; at += 2) {
        tell("one of many answers", is_answered(handles[at].at, LINE, 100, INSTANTS_OK, ANSWER));
        instants_close(handles[at].at);
    }
}

static double now(void)
{
    struct timespec at;
    clock_gettime(CLOCK_MONOTONIC, &at);
    return (double)at.tv_sec * 1e9 + (double)at.tv_nsec;
}

/* Prints the nanoseconds of a call of one line, the least of five rounds. */
static void measure(const char *words, long calls)
{
    struct instants_handle handle = {0};
    uint8_t output[INSTANTS_ROOM(1)];
    size_t written;
    double with = 1e99, without = 1e99;
    if (instants_open(words, strlen(words), &handle) != INSTANTS_OK)
        return;
    for (int round = 0; round < 5; round++) {
        double start = now();
        for (long call = 0; call < calls; call++)
            instants_answer(handle.at, LINE, strlen(LINE), output, sizeof output, &written);
        double between = now();
        for (long call = 0; call < calls; call++)
            instants_answer_lines((const uint8_t *)words, strlen(words), (const uint8_t *)LINE, strlen(LINE), output,
                                  sizeof output, &written);
        double end = now();
        with = between - start < with ? between - start : with;
        without = end - between < without ? end - between : without;
    }
    printf("%s: %.0f ns by a handle, %.0f ns by words\n", strrchr(words, '\n') + 1, with / (double)calls, without / (double)calls);
    instants_close(handle.at);
}

int main(int count, char **arguments)
{
    long calls = count > 1 ? atol(arguments[1]) : 0;
    for (size_t at = 0; at < sizeof readers / sizeof *readers; at++) {
        if (calls > 0)
            measure(readers[at], calls);
        else
            try_words(readers[at]);
    }
    if (calls > 0)
        return 0;
    try_ends();
    try_many();
    try_refused("", INSTANTS_REFUSED);
    try_refused("+00:00\n-\n100", INSTANTS_REFUSED);
    try_refused("+00:00\n-\n100\nrfc3339\n", INSTANTS_REFUSED);
    try_refused("+00:00\n-\n100\nv1\n[x]", INSTANTS_REFUSED);
    try_refused("+00:00\n-\n100\nv1\n\xff", INSTANTS_FAILED);
    return has_failed;
}
