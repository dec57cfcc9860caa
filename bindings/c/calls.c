/*
 * Calls each function of the library once, and compares what it says, its numbers by their names in the header. Ends with status 1
 * where something differs.
 */
#include <instants.h>

#include <stdbool.h>
#include <stdio.h>
#include <string.h>

#define ANSWERS "1969-12-31T23:59:58.250000000Z\n! range day\n! long\n"

static const char words[] = "+00:00\n-\n30\nrfc3339";
static const char input[] = "1969-12-31T23:59:58.25Z\n2021-02-30T00:00:00Z\n9999999999999999999999999999999";

static bool has_failed = false;

static void tell(const char *what, bool is_well)
{
    if (is_well)
        return;
    printf("FAILED: %s\n", what);
    has_failed = true;
}

static bool is_entry(const struct instants_moment *moment, int64_t seconds, uint32_t nanoseconds, uint32_t fault)
{
    return moment->seconds == seconds && moment->nanoseconds == nanoseconds && moment->fault == fault;
}

/* The answers, by words and by a handle. */
static void try_answers(const void *at)
{
    char output[INSTANTS_ROOM(2)];
    size_t written = 0, due = strlen(ANSWERS);
    uint8_t status = instants_answer_lines(words, strlen(words), input, strlen(input), output, sizeof output, &written);
    tell("instants_answer_lines", status == INSTANTS_OK && written == due && !memcmp(output, ANSWERS, due));
    memset(output, '.', sizeof output);
    status = instants_answer(at, input, strlen(input), output, sizeof output, &written);
    tell("instants_answer", status == INSTANTS_OK && written == due && !memcmp(output, ANSWERS, due));
}

/* The same as numbers, one entry more than there are lines. */
static void try_moments(const void *at)
{
    struct instants_moment moments[4];
    size_t written = 0;
    memset(moments, 7, sizeof moments);
    uint8_t status = instants_answer_moments(at, input, strlen(input), moments, 4, &written);
    tell("instants_answer_moments", status == INSTANTS_OK && written == 3);
    tell("the entry of a date", is_entry(&moments[0], -2, 250000000, 0));
    tell("the entry of a fault", is_entry(&moments[1], 0, 0, INSTANTS_FAULT_RANGE + INSTANTS_COMPONENT_DAY));
    tell("the entry of a long line", is_entry(&moments[2], 0, 0, INSTANTS_FAULT_LONG));
    tell("no entry more", is_entry(&moments[3], 0x0707070707070707, 0x07070707, 0x07070707));
}

static void try_sentence(const char *refused, uint8_t due, const char *sentence)
{
    char output[100];
    size_t length = 0;
    uint8_t status = instants_sentence(refused, strlen(refused), output, sizeof output, &length);
    tell("instants_sentence", status == due && length == strlen(sentence) && !memcmp(output, sentence, length));
}

static const char lines_words[] = "carry\nrfc3339";
static const char lines_input[] = "at 1969-12-31T23:59:58.25Z\n  none\n2021-01-02T03:04:05Zulu";

#define KEYED                                                                                                                             \
    "1969-12-31T23:59:58.250000000Z\tat 1969-12-31T23:59:58.25Z\n1969-12-31T23:59:58.250000000Z\t  none\n! doubt\t2021-01-02T03:04:05Zulu\n"

static bool is_date(const struct instants_lines_date *date, int64_t seconds, uint32_t nanoseconds, uint32_t reason, size_t start, size_t end)
{
    return date->seconds == seconds && date->nanoseconds == nanoseconds && date->reason == reason && date->start == start && date->end == end;
}

/* The keys and the dates of lines, by a handle. */
static void try_lines(const void *at)
{
    char output[INSTANTS_LINES_ROOM(sizeof lines_input, 2, 0)];
    struct instants_lines_above above = {0};
    struct instants_lines_date dates[3];
    size_t written = 0, due = strlen(KEYED);
    uint8_t status = instants_lines_keys(at, lines_input, strlen(lines_input), output, sizeof output, &written, &above);
    tell("instants_lines_keys", status == INSTANTS_OK && written == due && !memcmp(output, KEYED, due));
    tell("what is above", above.state == 2 && above.indent == 0 && above.len == 7 && !memcmp(above.key, "! doubt", 7));
    status = instants_lines_dates(at, lines_input, strlen(lines_input), dates, 3, &written);
    tell("instants_lines_dates", status == INSTANTS_OK && written == 3);
    tell("the date of a line", is_date(&dates[0], -2, 250000000, 0, 3, 26));
    tell("a line without a date", is_date(&dates[1], 0, 0, INSTANTS_REASON_NONE, 0, 0));
    tell("a line in doubt", is_date(&dates[2], 0, 0, INSTANTS_REASON_GOES_ON, 0, 20));
}

/* The calls for dates inside lines. */
static void try_dates_inside(void)
{
    struct instants_lines_handle handle = {0};
    char output[100];
    size_t length = 0;
    const char *sentence = "instants-lines: the calls have modes key and carry";
    uint8_t status = instants_lines_sentence("explain\nrfc3339", 15, NULL, 0, output, sizeof output, &length);
    tell("instants_lines_sentence", status == INSTANTS_REFUSED && length == strlen(sentence) && !memcmp(output, sentence, length));
    tell("instants_lines_open", instants_lines_open(lines_words, strlen(lines_words), NULL, 0, &handle) == INSTANTS_OK && handle.at);
    if (!handle.at)
        return;
    try_lines(handle.at);
    instants_lines_close(handle.at);
}

int main(void)
{
    struct instants_handle handle = {0};
    tell("instants_version", instants_version() == INSTANTS_VERSION);
    try_sentence(words, INSTANTS_OK, "");
    try_sentence("+00:00\n-\n100\nrfc3339\nx", INSTANTS_REFUSED, "instants: source 2 is not a known source with its description");
    tell("instants_open", instants_open(words, strlen(words), &handle) == INSTANTS_OK && handle.at);
    if (!handle.at)
        return 1;
    try_answers(handle.at);
    try_moments(handle.at);
    instants_close(handle.at);
    try_dates_inside();
    return has_failed;
}
