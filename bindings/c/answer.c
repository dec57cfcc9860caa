/*
 * Answers standard input as the program does, by calls of the library: the words of the command line are the program's.
 *
 *     answer TARGET ASSUMED LIMIT SOURCE...
 *
 * It reads and answers blocks of whole lines, one call for each: the answers to the blocks are those to the whole input.
 */
#include <instants.h>

#include <stdbool.h>
#include <stdio.h>
#include <stdlib.h>
#include <string.h>

enum { BLOCK = 1 << 20 };

struct text {
    uint8_t *bytes;
    size_t len;
    size_t room;
};

/* Makes room for so many bytes in all. */
static bool grow(struct text *text, size_t room)
{
    if (room <= text->room)
        return true;
    uint8_t *grown = realloc(text->bytes, room);
    if (!grown)
        return false;
    text->bytes = grown;
    text->room = room;
    return true;
}

/* The words in one text, with a line feed between them; a word with a line feed of its own is none. */
static bool join(struct text *text, char **words)
{
    for (char **word = words; *word; word++) {
        size_t len = strlen(*word);
        if (memchr(*word, '\n', len) || !grow(text, text->len + len + 1))
            return false;
        if (word != words)
            text->bytes[text->len++] = '\n';
        memcpy(text->bytes + text->len, *word, len);
        text->len += len;
    }
    return true;
}

/* How many bytes the whole lines at the start of a text have. */
static size_t whole_lines(const struct text *text)
{
    size_t len = text->len;
    while (len > 0 && text->bytes[len - 1] != '\n')
        len--;
    return len;
}

static size_t line_feeds(const uint8_t *bytes, size_t len)
{
    size_t count = 0;
    const uint8_t *end = bytes + len;
    for (; (bytes = memchr(bytes, '\n', (size_t)(end - bytes))); bytes++)
        count++;
    return count;
}

/* Says what is refused, on standard error. */
static void say(const struct text *words)
{
    uint8_t sentence[4096];
    size_t len;
    instants_sentence(words->bytes, words->len, sentence, sizeof sentence, &len);
    fprintf(stderr, "%.*s\n", (int)(len < sizeof sentence ? len : sizeof sentence), (const char *)sentence);
}

/* Answers the first bytes of the input on standard output, and takes them away. */
static uint8_t answer(const struct text *words, struct text *input, size_t len, struct text *output)
{
    if (!grow(output, INSTANTS_ROOM(line_feeds(input->bytes, len))))
        return INSTANTS_FAILED;
    uint8_t status =
        instants_answer_lines(words->bytes, words->len, input->bytes, len, output->bytes, output->room, &output->len);
    if (status == INSTANTS_OK && fwrite(output->bytes, 1, output->len, stdout) != output->len)
        return INSTANTS_FAILED;
    memmove(input->bytes, input->bytes + len, input->len - len);
    input->len -= len;
    return status;
}

/* Answers standard input, block by block. */
static uint8_t answer_all(const struct text *words, struct text *input, struct text *output)
{
    for (;;) {
        if (!grow(input, input->len + BLOCK))
            return INSTANTS_FAILED;
        size_t count = fread(input->bytes + input->len, 1, BLOCK, stdin);
        input->len += count;
        uint8_t status = answer(words, input, count ? whole_lines(input) : input->len, output);
        if (status != INSTANTS_OK || count == 0)
            return status;
    }
}

int main(int count, char **arguments)
{
    struct text words = {0}, input = {0}, output = {0};
    uint8_t status = INSTANTS_FAILED;
    (void)count;
    if (instants_version() == INSTANTS_VERSION && grow(&words, 1) && join(&words, arguments + 1))
        status = answer_all(&words, &input, &output);
    if (status != INSTANTS_OK)
        say(&words);
    if (fflush(stdout) || ferror(stdin))
        status = INSTANTS_FAILED;
    free(words.bytes);
    free(input.bytes);
    free(output.bytes);
    return status;
}
