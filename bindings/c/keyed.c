/*
 * Writes each line of standard input after the key of its date, as the program `instants-lines` does, by calls of the library: the
 * words of the command line are the program's.
 *
 *     keyed [-n] [-b BYTES] [-z FILE] key|carry [TARGET [ASSUMED [LIMIT]]] .. SOURCE...
 *
 * `-z` names the file of the zone that the words name, `-b` how many bytes are read at once. `-n` writes numbers in place of each line: the seconds and nanoseconds of its
 * date, the number of why it has none, and the places of the first byte and after the last one. Blocks of whole lines are read, with
 * one call for each: the outputs of the blocks are that of the whole input.
 */
#include <instants.h>

#include <stdbool.h>
#include <stdio.h>
#include <stdlib.h>
#include <string.h>

/* A block and its output stay in the processor's cache. */
enum { BLOCK = 1 << 15, FEW_BYTES = 32, ZONE_ROOM = 65537 };

struct text {
    uint8_t *bytes;
    size_t len;
    size_t room;
};

/* What the lines of the blocks are read by, and where their outputs are put. */
struct reading {
    void *at;
    bool tells_numbers;
    size_t block;
    struct instants_lines_above above;
    struct text input, output;
};

/* Makes room for so many bytes in all. */
static bool grow(struct text *text, size_t room)
{
    if (room <= text->room)
        return true;
    uint8_t *grown = realloc(text->bytes, room);
    if (!grown)
        return false;
    text->bytes = grown;
    text->room = room;
    return true;
}

/* The words in one text, with a line feed between them; a word with a line feed of its own is none. */
static bool join(struct text *text, char **words)
{
    for (char **word = words; *word; word++) {
        size_t len = strlen(*word);
        if (memchr(*word, '\n', len) || !grow(text, text->len + len + 1))
            return false;
        if (word != words)
            text->bytes[text->len++] = '\n';
        memcpy(text->bytes + text->len, *word, len);
        text->len += len;
    }
    return true;
}

/* The bytes of a file, as many as tell that it is a zone's. */
static bool read_zone(struct text *zone, const char *name)
{
    FILE *file = fopen(name, "rb");
    if (!file || !grow(zone, ZONE_ROOM))
        return false;
    zone->len = fread(zone->bytes, 1, ZONE_ROOM, file);
    return fclose(file) == 0;
}

/* How many bytes the whole lines at the start of a text have. */
static size_t whole_lines(const struct text *text)
{
    size_t len = text->len;
    while (len > 0 && text->bytes[len - 1] != '\n')
        len--;
    return len;
}

static size_t line_feeds(const uint8_t *bytes, size_t len)
{
    size_t count = 0;
    const uint8_t *end = bytes + len;
    for (; (bytes = memchr(bytes, '\n', (size_t)(end - bytes))); bytes++)
        count++;
    return count;
}

/* Writes the first bytes of the input after their keys. */
static uint8_t write_keys(struct reading *reading, size_t len)
{
    size_t written;
    /* (few lines are as short as this; where more are, or a label is long, the output gets more room) */
    size_t room = INSTANTS_LINES_ROOM(len, len / FEW_BYTES, 0);
    for (;;) {
        if (!grow(&reading->output, room))
            return INSTANTS_FAILED;
        if (instants_lines_keys(reading->at, reading->input.bytes, len, reading->output.bytes, reading->output.room, &written,
                                &reading->above) == INSTANTS_OK)
            break;
        room = 2 * reading->output.room;
    }
    return fwrite(reading->output.bytes, 1, written, stdout) == written ? INSTANTS_OK : INSTANTS_FAILED;
}

/* Writes the numbers of the first bytes of the input. */
static uint8_t write_numbers(struct reading *reading, size_t len)
{
    size_t most = line_feeds(reading->input.bytes, len) + 1, written;
    if (!grow(&reading->output, most * sizeof(struct instants_lines_date)))
        return INSTANTS_FAILED;
    struct instants_lines_date *dates = (struct instants_lines_date *)(void *)reading->output.bytes;
    if (instants_lines_dates(reading->at, reading->input.bytes, len, dates, most, &written) != INSTANTS_OK)
        return INSTANTS_FAILED;
    for (size_t at = 0; at < written; at++)
        printf("%lld %u %u %zu %zu\n", (long long)dates[at].seconds, dates[at].nanoseconds, dates[at].reason, dates[at].start, dates[at].end);
    return INSTANTS_OK;
}

/* Reads standard input, block by block. */
static uint8_t read_all(struct reading *reading)
{
    struct text *input = &reading->input;
    for (;;) {
        if (!grow(input, input->len + reading->block))
            return INSTANTS_FAILED;
        size_t count = fread(input->bytes + input->len, 1, reading->block, stdin);
        input->len += count;
        size_t len = count ? whole_lines(input) : input->len;
        uint8_t status = reading->tells_numbers ? write_numbers(reading, len) : write_keys(reading, len);
        memmove(input->bytes, input->bytes + len, input->len - len);
        input->len -= len;
        if (status != INSTANTS_OK || count == 0)
            return status;
    }
}

/* Says what is refused, on standard error. */
static void say(const struct text *words, const struct text *zone)
{
    uint8_t sentence[4096];
    size_t len;
    instants_lines_sentence(words->bytes, words->len, zone->bytes, zone->len, sentence, sizeof sentence, &len);
    fprintf(stderr, "%.*s\n", (int)(len < sizeof sentence ? len : sizeof sentence), (const char *)sentence);
}

/* Reads standard input by words and a zone. */
static uint8_t read_by(const struct text *words, const struct text *zone, bool tells_numbers, size_t block)
{
    struct reading reading = {.tells_numbers = tells_numbers, .block = block};
    struct instants_lines_handle handle = {0};
    uint8_t status = instants_lines_open(words->bytes, words->len, zone->bytes, zone->len, &handle);
    if (status != INSTANTS_OK) {
        say(words, zone);
        return status;
    }
    reading.at = handle.at;
    status = read_all(&reading);
    instants_lines_close(handle.at);
    free(reading.input.bytes);
    free(reading.output.bytes);
    return fflush(stdout) || ferror(stdin) ? INSTANTS_FAILED : status;
}

int main(int count, char **arguments)
{
    struct text words = {0}, zone = {0};
    bool tells_numbers = false, is_well = instants_version() == INSTANTS_VERSION && count > 0;
    size_t block = BLOCK;
    char **word = arguments + 1;
    if (*word && !strcmp(*word, "-n")) {
        tells_numbers = true;
        word++;
    }
    if (*word && !strcmp(*word, "-b") && word[1]) {
        block = strtoul(word[1], NULL, 10);
        word += 2;
    }
    if (*word && !strcmp(*word, "-z") && word[1]) {
        is_well = is_well && read_zone(&zone, word[1]);
        word += 2;
    }
    uint8_t status = INSTANTS_FAILED;
    if (is_well && grow(&words, 1) && join(&words, word))
        status = read_by(&words, &zone, tells_numbers, block);
    free(words.bytes);
    free(zone.bytes);
    return status;
}
