/*
 * Refuses each allocation of a call in turn, and sees that the call ends with INSTANTS_FAILED, writes nothing and gives back
 * what it took, that a handle gives back what it kept, and that nothing is kept where words are refused. Link it with `-Wl,--wrap=malloc,--wrap=realloc,--wrap=free`. Ends with status 1 where something failed.
 */
#include <instants.h>

#include <stdbool.h>
#include <stdio.h>
#include <string.h>

void *__real_malloc(size_t size);
void *__real_realloc(void *block, size_t size);
void __real_free(void *block);
void *__wrap_malloc(size_t size);
void *__wrap_realloc(void *block, size_t size);
void __wrap_free(void *block);

/* Allocations that are granted yet, and blocks that are not given back. */
static long granted = 0;
static long held = 0;

void *__wrap_malloc(size_t size)
{
    if (granted-- <= 0)
        return NULL;
    held++;
    return __real_malloc(size);
}

void *__wrap_realloc(void *block, size_t size)
{
    if (granted-- <= 0)
        return NULL;
    if (!block)
        held++;
    return __real_realloc(block, size);
}

void __wrap_free(void *block)
{
    if (block)
        held--;
    __real_free(block);
}

static const char words[] = "+00:00\n-\n100\nrfc3339\nv3\n[year]-[month]-[day] [hour]:[minute]:[second] [offset_hour sign:mandatory]\nstrftime\n%c";
static const char input[] = "2021-01-02T04:04:05+01:00\n";

/* Whether a call with so many allocations ends as it should; is_done tells whether they were enough. */
static bool is_well(long allocations, bool *is_done)
{
    uint8_t output[100];
    size_t written = 12345;
    memset(output, '.', sizeof output);
    granted = allocations;
    uint8_t status = instants_answer_lines(words, strlen(words), input, strlen(input), output, sizeof output, &written);
    *is_done = status == INSTANTS_OK;
    if (held != 0)
        return false;
    return *is_done ? written == 31 : status == INSTANTS_FAILED && written == 0 && output[0] == '.';
}

/* The same of the call for a sentence, which is told in any case. */
static bool is_told(long allocations, bool *is_done)
{
    static const char refused[] = "+00:00\n-\n100\nv1\n[x]", memory[] = "instants: out of memory";
    uint8_t output[200];
    size_t len = 12345;
    granted = allocations;
    uint8_t status = instants_sentence(refused, strlen(refused), output, sizeof output, &len);
    *is_done = status == INSTANTS_REFUSED;
    if (held != 0)
        return false;
    return *is_done || (status == INSTANTS_FAILED && len == strlen(memory) && !memcmp(output, memory, len));
}

/* The same of a handle: opened, answered by with no allocation, and closed. */
static bool is_opened(long allocations, bool *is_done)
{
    uint8_t output[100];
    size_t written = 12345;
    struct instants_handle handle = {0};
    granted = allocations;
    uint8_t status = instants_open(words, strlen(words), &handle);
    *is_done = status == INSTANTS_OK;
    if (!*is_done)
        return status == INSTANTS_FAILED && !handle.at && held == 0;
    granted = 0;
    status = instants_answer(handle.at, input, strlen(input), output, sizeof output, &written);
    instants_close(handle.at);
    return status == INSTANTS_OK && written == 31 && held == 0;
}

/* Words with a description that is refused after another one is kept: nothing of either stays, with a handle and without one. */
static const char half[] = "+00:00\n-\n100\nv3\n[year]-[month] [optional [[day]]]\nstrftime\n%Q";

static bool is_refused(long allocations, bool *is_done)
{
    uint8_t output[100];
    size_t written = 12345;
    struct instants_handle handle = {0};
    granted = allocations;
    uint8_t opened = instants_open(half, strlen(half), &handle);
    if (handle.at || held != 0)
        return false;
    granted = allocations;
    uint8_t answered = instants_answer_lines(half, strlen(half), input, strlen(input), output, sizeof output, &written);
    *is_done = opened == INSTANTS_REFUSED && answered == INSTANTS_REFUSED;
    return held == 0 && written == 0 && (*is_done || opened == INSTANTS_FAILED || answered == INSTANTS_FAILED);
}

/* The same of a handle for lines: opened with words that name formats, asked with no allocation, and closed. */
static bool are_lines_opened(long allocations, bool *is_done)
{
    static const char lines[] = "carry\nlabel\nx\nrfc3339\naccess-log\nv3\n[year]-[month]-[day] [hour]:[minute]:[second] [offset_hour]";
    uint8_t output[100];
    size_t written = 12345;
    struct instants_lines_handle handle = {0};
    struct instants_lines_above above = {0};
    struct instants_lines_date date;
    granted = allocations;
    uint8_t status = instants_lines_open(lines, strlen(lines), NULL, 0, &handle);
    *is_done = status == INSTANTS_OK;
    if (!*is_done)
        return status == INSTANTS_FAILED && !handle.at && held == 0;
    granted = 0;
    status = instants_lines_keys(handle.at, input, strlen(input), output, sizeof output, &written, &above);
    bool is_well = status == INSTANTS_OK && written == 59;
    status = instants_lines_dates(handle.at, input, strlen(input), &date, 1, &written);
    instants_lines_close(handle.at);
    return is_well && status == INSTANTS_OK && written == 1 && date.seconds == 1609556645 && held == 0;
}

static bool try_each(const char *what, bool (*call)(long, bool *))
{
    bool is_done = false;
    long at = 0;
    for (; !is_done; at++) {
        if (!call(at, &is_done)) {
            printf("FAILED: %s with %ld allocations, %ld blocks held\n", what, at, held);
            return false;
        }
    }
    printf("%s: each of %ld allocations refused\n", what, at - 1);
    return at > 1;
}

int main(void)
{
    bool answers = try_each("lines", is_well);
    bool sentences = try_each("a sentence", is_told);
    bool handles = try_each("a handle", is_opened);
    bool refused = try_each("refused words", is_refused);
    bool lines = try_each("a handle for lines", are_lines_opened);
    return !(answers && sentences && handles && refused && lines);
}
