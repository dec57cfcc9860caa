/*
 * Tries the calls where they end early: no words, wrong words, words that are not UTF-8, no room, an empty input, a NUL, and
 * NULL where a length is 0.
 * Prints what failed, and ends with status 1 if anything did.
 */
#include <instants.h>

#include <stdbool.h>
#include <stdio.h>
#include <string.h>

#define WORDS "+00:00\n-\n100\nrfc3339"
#define LINE "2021-01-02T04:04:05+01:00\n"
#define ANSWER "2021-01-02T03:04:05.000000000Z\n"

static bool has_failed = false;

static void tell(const char *what, bool is_well)
{
    if (is_well)
        return;
    printf("FAILED: %s\n", what);
    has_failed = true;
}

struct call {
    const char *what;
    const char *words;
    size_t words_len;
    const char *input;
    size_t input_len;
    size_t room;
    uint8_t status;
    const char *output; /* what is written */
    size_t written;
};

#define TEXT(text) text, sizeof text - 1

static const struct call calls[] = {
    {"a line", TEXT(WORDS), TEXT(LINE), 100, INSTANTS_OK, TEXT(ANSWER)},
    {"room for just that", TEXT(WORDS), TEXT(LINE), 31, INSTANTS_OK, TEXT(ANSWER)},
    {"a byte less", TEXT(WORDS), TEXT(LINE), 30, INSTANTS_FAILED, TEXT("2021-01-02T03:04:05.000000000Z")},
    {"no room", TEXT(WORDS), TEXT(LINE), 0, INSTANTS_FAILED, TEXT("")},
    {"an empty input", TEXT(WORDS), TEXT(""), 100, INSTANTS_OK, TEXT("")},
    {"an empty input and no room", TEXT(WORDS), TEXT(""), 0, INSTANTS_OK, TEXT("")},
    {"an empty line", TEXT(WORDS), TEXT("\n"), 100, INSTANTS_OK, TEXT("! component year\n")},
    {"no line feed at the end", TEXT(WORDS), TEXT("2021-01-02T04:04:05+01:00"), 100, INSTANTS_OK, TEXT(ANSWER)},
    {"a NUL in a line", TEXT(WORDS), TEXT("2021-01-02T04:04:05+01:00\0\n"), 100, INSTANTS_OK, TEXT("! trailing\n")},
    {"a NUL in a word", TEXT("+00:00\n-\n100\nrfc3339\0"), TEXT(LINE), 100, INSTANTS_REFUSED, TEXT("")},
    {"no words", TEXT(""), TEXT(LINE), 100, INSTANTS_REFUSED, TEXT("")},
    {"too few words", TEXT("+00:00\n-\n100"), TEXT(LINE), 100, INSTANTS_REFUSED, TEXT("")},
    {"a line feed behind the words", TEXT(WORDS "\n"), TEXT(LINE), 100, INSTANTS_REFUSED, TEXT("")},
    {"a wrong target", TEXT("+25:00\n-\n100\nrfc3339"), TEXT(LINE), 100, INSTANTS_REFUSED, TEXT("")},
    {"no description", TEXT("+00:00\n-\n100\nstrftime\n%Q"), TEXT(LINE), 100, INSTANTS_REFUSED, TEXT("")},
    {"words that are not UTF-8", TEXT("+00:00\n-\n100\nv1\n\xff"), TEXT(LINE), 100, INSTANTS_FAILED, TEXT("")},
};

static void try_call(const struct call *call)
{
    uint8_t output[100];
    size_t written = 12345;
    memset(output, '.', sizeof output);
    uint8_t status =
        instants_answer_lines(call->words, call->words_len, call->input, call->input_len, output, call->room, &written);
    bool is_well = status == call->status && written == call->written && !memcmp(output, call->output, written);
    for (size_t at = written; at < sizeof output; at++)
        is_well = is_well && output[at] == '.';
    tell(call->what, is_well);
}

static void try_sentence(const char *what, const char *words, size_t room, uint8_t status, const char *sentence)
{
    uint8_t output[100];
    size_t len = 12345;
    memset(output, '.', sizeof output);
    uint8_t answered = instants_sentence(words, strlen(words), output, room, &len);
    size_t written = len < room ? len : room;
    bool is_well = answered == status && len == strlen(sentence) && !memcmp(output, sentence, written);
    for (size_t at = written; at < sizeof output; at++)
        is_well = is_well && output[at] == '.';
    tell(what, is_well);
}

/* NULL where a length is 0, in each call. */
static void try_null(void)
{
    struct instants_handle handle = {0};
    char output[100];
    size_t written = 12345;
    tell("words of NULL", instants_answer_lines(NULL, 0, LINE, strlen(LINE), output, sizeof output, &written) == INSTANTS_REFUSED && written == 0);
    tell("an input of NULL", instants_answer_lines(WORDS, strlen(WORDS), NULL, 0, output, sizeof output, &written) == INSTANTS_OK && written == 0);
    tell("both of NULL, and no room", instants_answer_lines(WORDS, strlen(WORDS), NULL, 0, NULL, 0, &written) == INSTANTS_OK && written == 0);
    tell("no room of NULL", instants_answer_lines(WORDS, strlen(WORDS), LINE, strlen(LINE), NULL, 0, &written) == INSTANTS_FAILED && written == 0);
    tell("the length of a sentence", instants_sentence("+00:00", 6, NULL, 0, &written) == INSTANTS_REFUSED && written == 56);
    tell("a sentence on NULL", instants_sentence(NULL, 0, NULL, 0, &written) == INSTANTS_REFUSED && written == 56);
    tell("no handle on NULL", instants_open(NULL, 0, &handle) == INSTANTS_REFUSED && !handle.at);
    if (instants_open(WORDS, strlen(WORDS), &handle) != INSTANTS_OK) {
        tell("a handle", false);
        return;
    }
    tell("an input of NULL by a handle", instants_answer(handle.at, NULL, 0, NULL, 0, &written) == INSTANTS_OK && written == 0);
    tell("no moments of NULL", instants_answer_moments(handle.at, NULL, 0, NULL, 0, &written) == INSTANTS_OK && written == 0);
    tell("no room for a moment", instants_answer_moments(handle.at, LINE, strlen(LINE), NULL, 0, &written) == INSTANTS_FAILED && written == 0);
    instants_close(handle.at);
}

/* Moments and faults as numbers, in room for so many of three entries; the others stay. */
static void try_moments(const char *what, size_t room, uint8_t status, size_t count)
{
    static const char words[] = "+01:00\n-\n30\nrfc3339";
    static const char input[] = "1969-12-31T23:59:58.25Z\n2021-02-30T00:00:00Z\n9999999999999999999999999999999";
    static const struct instants_moment due[] = {
        {-2, 250000000, 0},
        {0, 0, INSTANTS_FAULT_RANGE + INSTANTS_COMPONENT_DAY},
        {0, 0, INSTANTS_FAULT_LONG},
    };
    struct instants_moment moments[4];
    struct instants_handle handle = {0};
    size_t written = 12345;
    for (size_t at = 0; at < 4; at++)
        moments[at] = (struct instants_moment){5, 6, 7};
    bool is_well = instants_open(words, strlen(words), &handle) == INSTANTS_OK &&
                   instants_answer_moments(handle.at, input, strlen(input), moments, room, &written) == status && written == count;
    for (size_t at = 0; at < 4; at++) {
        const struct instants_moment *wanted = at < count ? &due[at] : &(struct instants_moment){5, 6, 7};
        is_well = is_well && moments[at].seconds == wanted->seconds && moments[at].nanoseconds == wanted->nanoseconds &&
                  moments[at].fault == wanted->fault;
    }
    tell(what, is_well);
    if (handle.at)
        instants_close(handle.at);
}

/* Two blocks of whole lines have the answers of both together. */
static void try_blocks(void)
{
    const char *both = LINE "yesterday\n";
    char whole[INSTANTS_ROOM(2)], parts[INSTANTS_ROOM(2)];
    size_t whole_len, first, second, words_len = strlen(WORDS), line_len = strlen(LINE);
    instants_answer_lines(WORDS, words_len, both, strlen(both), whole, sizeof whole, &whole_len);
    instants_answer_lines(WORDS, words_len, both, line_len, parts, sizeof parts, &first);
    instants_answer_lines(WORDS, words_len, both + line_len, strlen(both) - line_len, parts + first, sizeof parts - first, &second);
    tell("two blocks", first + second == whole_len && !memcmp(whole, parts, whole_len));
}

int main(void)
{
    for (size_t at = 0; at < sizeof calls / sizeof *calls; at++)
        try_call(&calls[at]);
    try_sentence("words that are accepted", WORDS, 100, INSTANTS_OK, "");
    try_sentence("the sentence of too few words", "+00:00", 100, INSTANTS_REFUSED, "instants: usage: instants TARGET ASSUMED LIMIT SOURCE...");
    try_sentence("the same, cut", "+00:00", 16, INSTANTS_REFUSED, "instants: usage: instants TARGET ASSUMED LIMIT SOURCE...");
    try_sentence("the sentence of words that are not UTF-8", "\xff", 100, INSTANTS_FAILED, "instants: out of memory");
    try_blocks();
    try_null();
    try_moments("moments", 4, INSTANTS_OK, 3);
    try_moments("an entry a line", 3, INSTANTS_OK, 3);
    try_moments("an entry less", 2, INSTANTS_FAILED, 2);
    try_moments("no entry", 0, INSTANTS_FAILED, 0);
    tell("the version", instants_version() == INSTANTS_VERSION);
    return has_failed;
}
