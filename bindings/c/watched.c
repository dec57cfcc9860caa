/*
 * The library with a watch over words: a call by a handle, and its end, see whether the text with which it was opened is still as
 * it was. Where it is not, a sentence is written to standard error, and the process is aborted. tools/try_kept_words.py links it
 * with the library, whose own calls go by the names that begin with `true_` there.
 */
#include <instants.h>

#undef instants_open
#undef instants_answer
#undef instants_answer_moments
#undef instants_lines_open
#undef instants_lines_keys
#undef instants_lines_dates

#include <stdio.h>
#include <stdlib.h>
#include <string.h>

uint8_t true_open(const void *words, size_t words_len, struct instants_handle *handle);
uint8_t true_answer(const void *at, const void *input, size_t input_len, void *output, size_t output_len, size_t *written);
uint8_t true_answer_moments(const void *at, const void *input, size_t input_len, struct instants_moment *moments,
                            size_t moments_len, size_t *written);
void true_close(void *at);
uint8_t true_lines_open(const void *words, size_t words_len, const void *zone, size_t zone_len,
                        struct instants_lines_handle *handle);
uint8_t true_lines_keys(const void *at, const void *input, size_t input_len, void *output, size_t output_len, size_t *written,
                        struct instants_lines_above *above);
uint8_t true_lines_dates(const void *at, const void *input, size_t input_len, struct instants_lines_date *dates, size_t dates_len,
                         size_t *written);
void true_lines_close(void *at);

/* An open handle, where its words are, and what they were as it was opened. */
struct watched {
    void *at;
    const void *words;
    size_t len;
    char copy[];
};

static const struct watched *looked_at(const void *at)
{
    const struct watched *watched = at;
    if (memcmp(watched->words, watched->copy, watched->len) != 0) {
        fputs("watched: the words of an open handle are no longer as they were\n", stderr);
        abort();
    }
    return watched;
}

/* A watch over words, whose handle is not open yet. */
static struct watched *watch(const void *words, size_t words_len)
{
    struct watched *watched = malloc(sizeof *watched + words_len);
    if (!watched)
        return NULL;
    *watched = (struct watched){.words = words, .len = words_len};
    memcpy(watched->copy, words, words_len);
    return watched;
}

/* Keeps the watch where its handle is open. */
static uint8_t kept(struct watched *watched, uint8_t status, void **at)
{
    if (status == INSTANTS_OK)
        *at = watched;
    else
        free(watched);
    return status;
}

uint8_t instants_open(const void *words, size_t words_len, struct instants_handle *handle)
{
    struct instants_handle opened = {0};
    struct watched *watched = watch(words, words_len);
    if (!watched)
        return INSTANTS_FAILED;
    uint8_t status = true_open(words, words_len, &opened);
    watched->at = opened.at;
    return kept(watched, status, &handle->at);
}

uint8_t instants_lines_open(const void *words, size_t words_len, const void *zone, size_t zone_len,
                            struct instants_lines_handle *handle)
{
    struct instants_lines_handle opened = {0};
    struct watched *watched = watch(words, words_len);
    if (!watched)
        return INSTANTS_FAILED;
    uint8_t status = true_lines_open(words, words_len, zone, zone_len, &opened);
    watched->at = opened.at;
    return kept(watched, status, &handle->at);
}

uint8_t instants_answer(const void *at, const void *input, size_t input_len, void *output, size_t output_len, size_t *written)
{
    return true_answer(looked_at(at)->at, input, input_len, output, output_len, written);
}

uint8_t instants_answer_moments(const void *at, const void *input, size_t input_len, struct instants_moment *moments,
                                size_t moments_len, size_t *written)
{
    return true_answer_moments(looked_at(at)->at, input, input_len, moments, moments_len, written);
}

void instants_close(void *at)
{
    true_close(looked_at(at)->at);
    free(at);
}

uint8_t instants_lines_keys(const void *at, const void *input, size_t input_len, void *output, size_t output_len, size_t *written,
                            struct instants_lines_above *above)
{
    return true_lines_keys(looked_at(at)->at, input, input_len, output, output_len, written, above);
}

uint8_t instants_lines_dates(const void *at, const void *input, size_t input_len, struct instants_lines_date *dates,
                             size_t dates_len, size_t *written)
{
    return true_lines_dates(looked_at(at)->at, input, input_len, dates, dates_len, written);
}

void instants_lines_close(void *at)
{
    true_lines_close(looked_at(at)->at);
    free(at);
}
