/*
 * Functions for SQLite: `instant(TARGET, SOURCE.., TEXT)` is the answer to a text as a line, as the program answers it,
 * `instant_fault(TARGET, SOURCE.., TEXT)` what is wrong with the text, or NULL, and `instant_key(TARGET, SOURCE.., TEXT)` the key of the
 * date inside the text, as `instants-lines key` writes it.
 *
 *     .load ./instant
 *     SELECT instant('+00:00', 'rfc3339', 'strftime', '%d/%b/%Y:%H:%M:%S %z', '01/Jan/2021:22:04:07 -0500');
 *     2021-01-02T03:04:07.000000000Z
 *     SELECT instant('+00:00', '+00:00', 'strftime', '%F %T', '2021-01-02 03:04:05');
 *     2021-01-02T03:04:05.000000000Z
 *     SELECT instant_fault('+00:00', 'rfc3339', 'yesterday');
 *     component year
 *     SELECT instant_key('+00:00', 'access-log', '::1 - - [01/Jan/2021:22:04:07 -0500] "GET / HTTP/1.0" 200 2326');
 *     2021-01-02T03:04:07.000000000Z
 *
 * Targets and sources are the program's words. An offset after the target is assumed for a text without one; where a source
 * stands there none is. A text of up to INSTANTS_GREATEST_LIMIT bytes is not too long.
 * Answers of one target compare as texts as their moments do, so the function serves as a key, also of an index. It is NULL
 * where one of its arguments is. Of a text with line feeds it is the answers to its lines, with a line feed between them, and
 * `instant_fault` is the first fault among these; the keys of lines likewise. (No function reads a file, so no zone is named.)
 *
 * Words that are the same for all rows of a statement are read once: a reader of them is kept by SQLite with the target, while
 * that is constant, and it is asked as long as the arguments are those that it was made of.
 */
#include <instants.h>
#include <sqlite3ext.h>

#include <stdbool.h>
#include <string.h>

SQLITE_EXTENSION_INIT1

/* A text of at most so many line feeds needs no memory for its answers. */
enum { SENTENCE_ROOM = 1024, FEW = 15 };

#define TEXT_OF(number) #number
#define DIGITS_OF(number) TEXT_OF(number)

/* A block of memory that bytes are put into, one after the other. */
struct block {
    char *bytes;
    size_t len;
};

/* What a function gives of a text: its user data. */
enum gives { ANSWER, FAULT, KEY };

/* A text of SQLite's. */
struct text {
    const char *bytes;
    size_t len;
};

/*
 * An open handle, for lines where keys are given, and what has to stay while it is open: the words. The arguments of which they are
 * made are kept beside them, each with a line feed after it.
 */
struct reader {
    enum gives gives;
    void *at;
    struct block words, arguments;
    char room[];
};

static void put(struct block *block, const void *bytes, size_t len)
{
    if (len > 0)
        memcpy(block->bytes + block->len, bytes, len);
    block->len += len;
}

static void put_text(struct block *block, const char *text)
{
    put(block, text, strlen(text));
}

static size_t length_of(sqlite3_value *value)
{
    return (size_t)sqlite3_value_bytes(value);
}

static void put_value(struct block *block, sqlite3_value *value)
{
    put(block, sqlite3_value_text(value), length_of(value));
}

static enum gives given_by(sqlite3_context *context)
{
    return *(const enum gives *)sqlite3_user_data(context);
}

/* Whether an argument is NULL, or there is no memory for its text; in that case the error is told. */
static bool is_missing(sqlite3_context *context, int count, sqlite3_value **values)
{
    for (int at = 0; at < count; at++) {
        if (sqlite3_value_type(values[at]) == SQLITE_NULL)
            return true;
        if (!sqlite3_value_text(values[at])) {
            sqlite3_result_error_nomem(context);
            return true;
        }
    }
    return false;
}

/* Whether an argument is an offset that is assumed, or `-`; no source begins as these do. */
static bool is_assumed(sqlite3_value *value)
{
    const unsigned char *word = sqlite3_value_text(value);
    return *word == '+' || *word == '-';
}

/* Puts the words of the arguments, with a line feed between them; the limit is the greatest. */
static void put_words(struct block *words, enum gives gives, int count, sqlite3_value **values)
{
    int at = 1;
    put_text(words, gives == KEY ? "key\n" : "");
    put_value(words, values[0]);
    put_text(words, "\n");
    if (is_assumed(values[at]))
        put_value(words, values[at++]);
    else
        put_text(words, "-");
    put_text(words, "\n" DIGITS_OF(INSTANTS_GREATEST_LIMIT));
    for (; at < count; at++) {
        put_text(words, "\n");
        put_value(words, values[at]);
    }
}

/* Puts the arguments, with a line feed after each. Whether none of them has one of its own. */
static bool put_arguments(struct block *arguments, int count, sqlite3_value **values)
{
    bool is_well = true;
    for (int at = 0; at < count; at++) {
        is_well = is_well && !memchr(sqlite3_value_text(values[at]), '\n', length_of(values[at]));
        put_value(arguments, values[at]);
        put_text(arguments, "\n");
    }
    return is_well;
}

/* Whether a reader was made of just these arguments; of one place in a statement there are always as many. */
static bool is_of(const struct reader *reader, int count, sqlite3_value **values)
{
    const char *rest = reader->arguments.bytes, *end = rest + reader->arguments.len;
    for (int at = 0; at < count; at++) {
        size_t len = length_of(values[at]);
        if ((size_t)(end - rest) <= len || memcmp(rest, sqlite3_value_text(values[at]), len) || rest[len] != '\n')
            return false;
        rest += len + 1;
    }
    return rest == end;
}

/* Closes a reader. */
static void close_reader(void *kept)
{
    struct reader *reader = kept;
    if (reader->at && reader->gives == KEY)
        instants_lines_close(reader->at);
    else if (reader->at)
        instants_close(reader->at);
    sqlite3_free(reader);
}

/* Tells what is refused of the words. */
static void refuse(sqlite3_context *context, enum gives gives, const struct block *words)
{
    char sentence[SENTENCE_ROOM];
    size_t len;
    if (gives == KEY)
        instants_lines_sentence(words->bytes, words->len, NULL, 0, sentence, sizeof sentence, &len);
    else
        instants_sentence(words->bytes, words->len, sentence, sizeof sentence, &len);
    sqlite3_result_error(context, sentence, (int)(len < sizeof sentence ? len : sizeof sentence));
}

/* Opens a handle for the words of a reader. */
static uint8_t open_handle(struct reader *reader)
{
    struct instants_handle handle = {0};
    struct instants_lines_handle lines = {0};
    uint8_t status;
    if (reader->gives == KEY)
        status = instants_lines_open(reader->words.bytes, reader->words.len, NULL, 0, &lines);
    else
        status = instants_open(reader->words.bytes, reader->words.len, &handle);
    reader->at = reader->gives == KEY ? lines.at : handle.at;
    return status;
}

/* Opens a reader whose memory is there. Whether it is open; else the error is told. */
static bool is_opened(sqlite3_context *context, struct reader *reader, int count, sqlite3_value **values)
{
    if (!put_arguments(&reader->arguments, count, values)) {
        sqlite3_result_error(context, "instant: a word has a line feed", -1);
        return false;
    }
    put_words(&reader->words, reader->gives, count, values);
    uint8_t status = open_handle(reader);
    if (status == INSTANTS_REFUSED)
        refuse(context, reader->gives, &reader->words);
    else if (status != INSTANTS_OK)
        sqlite3_result_error_nomem(context);
    return status == INSTANTS_OK;
}

/* Makes a reader of the arguments, or NULL where that fails and the error is told. */
static struct reader *make_reader(sqlite3_context *context, int count, sqlite3_value **values)
{
    size_t arguments_room = 0, words_room = sizeof "key\n\n-\n" DIGITS_OF(INSTANTS_GREATEST_LIMIT);
    for (int at = 0; at < count; at++)
        arguments_room += length_of(values[at]) + 1;
    struct reader *reader = sqlite3_malloc64(sizeof *reader + words_room + 2 * arguments_room);
    if (!reader) {
        sqlite3_result_error_nomem(context);
        return NULL;
    }
    *reader = (struct reader){
        .gives = given_by(context), .arguments = {reader->room, 0}, .words = {reader->room + arguments_room, 0}};
    if (is_opened(context, reader, count, values))
        return reader;
    close_reader(reader);
    return NULL;
}

/* Gives the first fault among answers, without its mark; where there is none the result stays NULL. */
static void give_fault(sqlite3_context *context, const struct block *answers)
{
    const char *at = answers->bytes, *end = at + answers->len;
    while (at < end && *at != '!')
        at = (const char *)memchr(at, '\n', (size_t)(end - at)) + 1;
    if (at < end)
        sqlite3_result_text(context, at + 2, (int)((const char *)memchr(at, '\n', (size_t)(end - at)) - at) - 2, SQLITE_TRANSIENT);
}

/* Puts the answers to lines after others; there is room for them. */
static void put_answers(struct block *answers, const void *at, const void *lines, size_t len, size_t room)
{
    size_t written;
    instants_answer(at, lines, len, answers->bytes + answers->len, room - answers->len, &written);
    answers->len += written;
}

/* Answers the lines of a text; after its last line feed, and where it is empty, there is an empty one. */
static void answer(sqlite3_context *context, const void *at, const struct text *text, struct block *answers, size_t room)
{
    put_answers(answers, at, text->bytes, text->len, room);
    if (text->len == 0 || text->bytes[text->len - 1] == '\n')
        put_answers(answers, at, "\n", 1, room);
    if (given_by(context) == FAULT)
        give_fault(context, answers);
    else
        sqlite3_result_text(context, answers->bytes, (int)answers->len - 1, SQLITE_TRANSIENT);
}

static size_t line_feeds(const struct text *text)
{
    size_t count = 0;
    for (size_t at = 0; at < text->len; at++)
        count += text->bytes[at] == '\n';
    return count;
}

/* Leaves of lines after their keys the keys alone, each with a line feed. */
static void keep_keys(struct block *keyed)
{
    const char *at = keyed->bytes, *end = at + keyed->len;
    keyed->len = 0;
    while (at < end) {
        size_t left = (size_t)(end - at), len = (size_t)((const char *)memchr(at, '\t', left) - at);
        /* (looked for first, since the line feed after the key may take the tab's place) */
        const char *next = (const char *)memchr(at + len, '\n', left - len) + 1;
        memmove(keyed->bytes + keyed->len, at, len);
        keyed->len += len;
        keyed->bytes[keyed->len++] = '\n';
        at = next;
    }
}

/* Puts lines after their keys behind others; there is room for them. */
static void put_keyed(struct block *keyed, const void *at, const void *lines, size_t len, size_t room)
{
    struct instants_lines_above above = {0};
    size_t written;
    instants_lines_keys(at, lines, len, keyed->bytes + keyed->len, room - keyed->len, &written, &above);
    keyed->len += written;
}

/* Gives the keys of the lines of a text; after its last line feed, and where it is empty, there is an empty line. */
static void give_keys(sqlite3_context *context, const void *at, sqlite3_value *value)
{
    struct text text = {(const char *)sqlite3_value_text(value), length_of(value)};
    size_t room = INSTANTS_LINES_ROOM(text.len, line_feeds(&text) + 1, 0);
    struct block keyed = {sqlite3_malloc64(room), 0};
    if (!keyed.bytes) {
        sqlite3_result_error_nomem(context);
        return;
    }
    put_keyed(&keyed, at, text.bytes, text.len, room);
    if (text.len == 0 || text.bytes[text.len - 1] == '\n')
        put_keyed(&keyed, at, "\n", 1, room);
    keep_keys(&keyed);
    sqlite3_result_text(context, keyed.bytes, (int)keyed.len - 1, SQLITE_TRANSIENT);
    sqlite3_free(keyed.bytes);
}

/* Answers a text, in memory of its own where there are many lines. */
static void answer_text(sqlite3_context *context, const void *at, sqlite3_value *value)
{
    char few[INSTANTS_ROOM(FEW)];
    struct text text = {(const char *)sqlite3_value_text(value), length_of(value)};
    size_t feeds = line_feeds(&text), room = INSTANTS_ROOM(feeds);
    struct block answers = {feeds <= FEW ? few : sqlite3_malloc64(room), 0};
    if (!answers.bytes)
        sqlite3_result_error_nomem(context);
    else
        answer(context, at, &text, &answers, room);
    if (answers.bytes != few)
        sqlite3_free(answers.bytes);
}

/* Gives what a function gives of a text. */
static void give(sqlite3_context *context, const void *at, sqlite3_value *value)
{
    if (given_by(context) == KEY)
        give_keys(context, at, value);
    else
        answer_text(context, at, value);
}

/* All functions, each with its user data. */
static void instant(sqlite3_context *context, int count, sqlite3_value **values)
{
    if (count < 3) {
        sqlite3_result_error(context, "instant: instant(TARGET, SOURCE.., TEXT)", -1);
        return;
    }
    if (is_missing(context, count, values))
        return;
    struct reader *kept = sqlite3_get_auxdata(context, 0);
    if (kept && is_of(kept, count - 1, values)) {
        give(context, kept->at, values[count - 1]);
        return;
    }
    struct reader *made = make_reader(context, count - 1, values);
    if (!made)
        return;
    give(context, made->at, values[count - 1]);
    /* (SQLite closes it, which it may do at once) */
    sqlite3_set_auxdata(context, 0, made, close_reader);
}

int sqlite3_instant_init(sqlite3 *database, char **error, const sqlite3_api_routines *api)
{
    SQLITE_EXTENSION_INIT2(api);
    (void)error;
    static const struct {
        const char *name;
        enum gives gives;
    } functions[] = {{"instant", ANSWER}, {"instant_fault", FAULT}, {"instant_key", KEY}};
    int kind = SQLITE_UTF8 | SQLITE_DETERMINISTIC | SQLITE_INNOCUOUS, made = SQLITE_OK;
    for (size_t at = 0; at < sizeof functions / sizeof *functions && made == SQLITE_OK; at++)
        made = sqlite3_create_function(database, functions[at].name, -1, kind, (void *)&functions[at].gives, instant, NULL, NULL);
    return made;
}
