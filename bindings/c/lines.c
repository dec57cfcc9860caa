/*
 * Opens handles for lines, has the keys and the dates of lines by them from four threads at once, and closes them; tries early ends, and
 * words and zones that are refused. Prints what failed, and ends with status 1 if anything did.
 *
 *     lines           tries the calls
 *     lines CALLS     calls instead by so many blocks of access-log lines, for what counts instructions
 */
#include <instants.h>

#include <pthread.h>
#include <stdbool.h>
#include <stdio.h>
#include <stdlib.h>
#include <string.h>

#define LINE "up at 2021-01-02T04:04:05+01:00\n"
#define KEY "2021-01-02T03:04:05.000000000Z\t"
#define KEYED KEY LINE
#define LOG "127.0.0.1 - - [10/Oct/2000:13:55:36 -0700] \"GET /index.html HTTP/1.0\" 200 2326\n"

enum { THREADS = 4, ROUNDS = 200 };

static bool has_failed = false;

static void tell(const char *what, bool is_well)
{
    if (is_well)
        return;
    printf("FAILED: %s\n", what);
    has_failed = true;
}

/* Whether an input has this output in room for so many bytes, and nothing after it is written. */
static bool is_keyed_below(const void *at, struct instants_lines_above *above, const char *input, size_t room, uint8_t status, const char *keyed)
{
    uint8_t output[200];
    size_t written = 12345, due = strlen(keyed);
    memset(output, '~', sizeof output);
    bool is_well = instants_lines_keys(at, input, strlen(input), output, room, &written, above) == status && written == due &&
                   !memcmp(output, keyed, due);
    for (size_t place = due; place < sizeof output; place++)
        is_well = is_well && output[place] == '~';
    return is_well;
}

/* The same at the beginning; where there is too little room nothing is given out. */
static bool is_keyed(const void *at, const char *input, size_t room, uint8_t status, const char *keyed)
{
    struct instants_lines_above above = {0};
    return is_keyed_below(at, &above, input, room, status, keyed) && (status == INSTANTS_OK ? above.state != 0 : above.state == 0);
}

/* Whether the only line of an input has this date. */
static bool is_dated(const void *at, const char *input, int64_t seconds, uint32_t reason, size_t start, size_t end)
{
    struct instants_lines_date dates[2] = {{0}};
    size_t written = 12345;
    dates[1].reason = 12345;
    return instants_lines_dates(at, input, strlen(input), dates, 2, &written) == INSTANTS_OK && written == 1 && dates[0].seconds == seconds &&
           dates[0].nanoseconds == 0 && dates[0].reason == reason && dates[0].start == start && dates[0].end == end && dates[1].reason == 12345;
}

/* Has lines by a handle that other threads have too. */
static void *ask_often(void *at)
{
    for (int round = 0; round < ROUNDS; round++) {
        if (!is_keyed(at, LINE, 200, INSTANTS_OK, KEYED) || !is_keyed(at, LINE, 40, INSTANTS_FAILED, "2021-01-02T03:04:05.000000000Z\tup at 202") ||
            !is_dated(at, LINE, 1609556645, 0, 6, 31))
            return at;
    }
    return NULL;
}

/* Whether four threads have them by one handle. */
static bool is_shared(void *at)
{
    pthread_t threads[THREADS];
    bool is_well = true;
    int count = 0;
    while (count < THREADS && !pthread_create(&threads[count], NULL, ask_often, at))
        count++;
    for (int thread = 0; thread < count; thread++) {
        void *failed = at;
        pthread_join(threads[thread], &failed);
        is_well = is_well && !failed;
    }
    return is_well && count == THREADS;
}

/* Opens a handle for words without a zone. */
static void *opened(const char *words)
{
    struct instants_lines_handle handle = {0};
    tell(words, instants_lines_open(words, strlen(words), NULL, 0, &handle) == INSTANTS_OK && handle.at);
    return handle.at;
}

static void try_words(const char *words)
{
    void *at = opened(words);
    if (!at)
        return;
    tell(words, is_shared(at));
    instants_lines_close(at);
}

/* Early ends by one handle: no room, no lines, empty ones, lines without a date, one without a line feed. */
static void try_ends(void)
{
    void *at = opened("key\nrfc3339");
    if (!at)
        return;
    tell("no room", is_keyed(at, LINE, 0, INSTANTS_FAILED, ""));
    struct instants_lines_above above = {0};
    tell("no lines", is_keyed_below(at, &above, "", 0, INSTANTS_OK, ""));
    tell("an empty line", is_keyed(at, "\n", 8, INSTANTS_OK, "! none\t\n"));
    tell("no line feed", is_keyed(at, "none", 200, INSTANTS_OK, "! none\tnone\n"));
    tell("the second line is cut", is_keyed(at, LINE "x\n", 65, INSTANTS_FAILED, KEYED "! "));
    tell("a doubt", is_dated(at, "2021-01-02T04:04:05Zulu", 0, INSTANTS_REASON_GOES_ON, 0, 20));
    struct instants_lines_date none;
    size_t written;
    tell("no entry", instants_lines_dates(at, "\n", 1, &none, 0, &written) == INSTANTS_FAILED && written == 0);
    instants_lines_close(at);
}

/* Blocks of lines in mode `carry`: what the lines above have is handed in. */
static void try_blocks(void)
{
    void *at = opened("carry\nrfc3339");
    if (!at)
        return;
    struct instants_lines_above above = {0};
    tell("a first block", is_keyed_below(at, &above, LINE, 200, INSTANTS_OK, KEYED) && above.state == 2 && above.indent == 0);
    tell("what is below", is_keyed_below(at, &above, "  x\n", 200, INSTANTS_OK, KEY "  x\n") && above.state == 2);
    /* What no call has left is read as it is, and no byte beyond it. */
    memset(&above, 255, sizeof above);
    uint8_t output[200];
    size_t written;
    tell("any bytes above", instants_lines_keys(at, "x", 1, output, sizeof output, &written, &above) == INSTANTS_OK && written == 63 + 3);
    instants_lines_close(at);
}

/* Words or a zone that are refused leave a handle as it is, and have a sentence. */
static void try_refused(const char *words, const char *zone, size_t zone_len, uint8_t status, const char *sentence)
{
    struct instants_lines_handle handle = {0};
    char output[300];
    size_t len = 12345;
    tell(words, instants_lines_open(words, strlen(words), zone, zone_len, &handle) == status && !handle.at);
    tell(words, instants_lines_sentence(words, strlen(words), zone, zone_len, output, sizeof output, &len) == status &&
                    len == strlen(sentence) && !memcmp(output, sentence, len));
}

/* Has the keys of many lines. */
static int call_often(long calls)
{
    enum { LINES = 1000 };
    static char input[LINES * (sizeof LOG - 1)], output[INSTANTS_LINES_ROOM(sizeof input, LINES, 0)];
    for (size_t line = 0; line < LINES; line++)
        memcpy(input + line * (sizeof LOG - 1), LOG, sizeof LOG - 1);
    void *at = opened("key\naccess-log");
    size_t written = 0;
    for (long call = 0; at && call < calls; call++) {
        struct instants_lines_above above = {0};
        has_failed = has_failed || instants_lines_keys(at, input, sizeof input, output, sizeof output, &written, &above) != INSTANTS_OK;
    }
    if (at)
        instants_lines_close(at);
    printf("%ld calls of %d lines, %zu bytes each\n", calls, LINES, written);
    return has_failed;
}

int main(int count, char **arguments)
{
    if (count > 1)
        return call_often(atol(arguments[1]));
    try_words("key\nrfc3339");
    try_words("carry\n+00:00\n-\n100\nrfc3339\naccess-log");
    try_words("key\nv3\n[year]-[month]-[day]T[hour]:[minute]:[second][offset_hour sign:mandatory]:[offset_minute]");
    try_ends();
    try_blocks();
    try_refused("", NULL, 0, INSTANTS_REFUSED, "instants-lines: \"\": no such mode; there are key, carry, replace, explain, locate");
    try_refused("replace\nrfc3339", NULL, 0, INSTANTS_REFUSED, "instants-lines: the calls have modes key and carry");
    try_refused("key\nrfc3339", "TZif", 4, INSTANTS_REFUSED, "instants-lines: the zone is cut off");
    try_refused("key\n+00:00\nEurope/Berlin\nstrftime\n%F %T", NULL, 0, INSTANTS_REFUSED,
                "instants-lines: \"Europe/Berlin\": there is no such zone");
    try_refused("key\n\xff", NULL, 0, INSTANTS_FAILED, "instants-lines: out of memory");
    return has_failed;
}
