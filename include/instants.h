/*
 * The programs `instants` and `instants-lines` as a library. It reads lines with dates from one block of memory, and writes one line
 * for each into another: a date-time of fixed width at one offset, or a named fault; or the line after the key of the date inside it.
 *
 *     const char words[] = "+00:00\n-\n100\nrfc3339";
 *     const char input[] = "2021-01-02T04:04:05+01:00\n";
 *     char output[INSTANTS_ROOM(1)];
 *     size_t written;
 *     uint8_t status = instants_answer_lines(words, strlen(words), input, strlen(input), output, sizeof output, &written);
 *     // 0, and the first 31 bytes of the output are 2021-01-02T03:04:05.000000000Z and a line feed
 *
 * Words. These are the arguments of the program, `TARGET ASSUMED LIMIT SOURCE...`, in UTF-8, as one text. A line feed stands
 * between two of them, and none after the last one. An argument contains no line feed; it may be empty or contain a NUL.
 *
 * Lines. A line ends in a line feed; a last part without one is a line too. The manual page instants(1) describes what a line
 * may be, and each answer. An answer with its line feed has at most INSTANTS_LINE_ROOM bytes. If an input is cut after line
 * feeds, and answered block by block, the answers of the blocks, joined in order, are the answers of the whole input.
 *
 * Lengths and counts are in bytes.
 *
 * Memory. All memory that is passed to a call stays the caller's, and is not used after the call has returned. A call takes
 * memory of its own by malloc and realloc, for the list of the arguments and for the descriptions, and frees it before it
 * returns. Only an open handle keeps something: the memory for the descriptions, and where the caller's text of the words is,
 * until it is closed. So several threads may call at the same time, each with its own output. No call may be made from a signal
 * handler, nor in the forked child of a process with threads.
 *
 * Handles. If the same words are used again and again, open a handle: the words are read once, when it is opened. A call with
 * the handle then reads no words and takes no memory:
 *
 *     struct instants_handle handle = {0};
 *     if (instants_open(words, strlen(words), &handle) == INSTANTS_OK) {
 *         instants_answer(handle.at, input, strlen(input), output, sizeof output, &written);
 *         instants_close(handle.at);
 *     }
 *
 * Numbers. `instants_answer_moments` gives each line's moment as seconds and nanoseconds in place of a text, or the number of its
 * fault. It is proved of the same moments as the texts, and of the same faults, if the component that a fault names has a number;
 * a component without one has the number of its fault's kind alone, and none is known to occur.
 *
 * Dates inside lines. The calls whose names begin with `instants_lines_` are for the program `instants-lines`, in its modes `key`
 * and `carry`: their words are the arguments of that program, `MODE [TARGET [ASSUMED [LIMIT]]] .. SOURCE...`, and instants-lines(1)
 * describes them. The calls have a handle of their own:
 *
 *     const char words[] = "key\nrfc3339";
 *     struct instants_lines_handle lines = {0};
 *     struct instants_lines_above above = {0};
 *     if (instants_lines_open(words, strlen(words), NULL, 0, &lines) == INSTANTS_OK) {
 *         instants_lines_keys(lines.at, input, strlen(input), output, sizeof output, &written, &above);
 *         instants_lines_close(lines.at);
 *     }
 *
 * The library opens no file. Where ASSUMED names a zone, as Europe/Berlin, the bytes of the zone's file (TZif, as below
 * /usr/share/zoneinfo) are passed when the handle is opened; they are not used after that call.
 *
 * Where it runs. The library is for x86-64 Linux. A call needs less than 256 KiB of stack: 152 KiB were measured for a
 * description with the deepest nesting that is allowed, 40 KiB for long descriptions that are not nested like that, 24 KiB for
 * the formats.
 *
 * The caller has to make sure of the following. The library does not check it.
 * - As many bytes as the length says follow each pointer, or as many entries. Words, an input, an output and moments may be NULL
 *   where their length is 0, and so may a zone and dates; no other pointer may be NULL. (This header replaces such a NULL by an address. Code that calls the
 *   library's symbols without this header has to pass an address there itself, aligned to 8 bytes for moments and dates.)
 * - `struct instants_lines_above` is `{0}`, or as a call has left it.
 * - What a call writes to does not overlap with anything else that is passed to it.
 * - While a call runs, no other code changes the words or the input, and no other code reads or writes the output, `*written`
 *   or `*sentence_len`, or `*above`.
 * - A handle is `{0}` when it is opened, so that no open handle is opened again.
 * - **The text of the words with which a handle was opened may not be freed, moved or changed before `instants_close`.** The
 *   handle has no copy of it: what it keeps of a description points into the text.
 * - A handle is used only after it was opened and before it is closed. It is closed once, and neither the handle nor a copy of
 *   it is used afterwards. Several threads may answer by one handle at the same time, and each thread may open and close
 *   handles of its own. A thread may use a handle that another thread opened, if the opening is ordered before that use, for
 *   example by a lock, or because the thread was started afterwards. A handle is closed after all calls with it have returned.
 * - malloc, realloc and free are of one allocator, which aligns its blocks to 16 bytes, as the C library does. A program may
 *   replace all three of them, but not only some.
 */
#ifndef INSTANTS_H
#define INSTANTS_H

#include <stddef.h>
#include <stdint.h>

#ifdef __cplusplus
extern "C" {
#endif

/* The version of this header: 10000 times the major number, plus 100 times the minor number, plus the patch number. */
#define INSTANTS_VERSION 100

/* Statuses: those with which the program ends. */

/* All lines are answered, or the words are accepted. */
#define INSTANTS_OK 0
/* The output is too small, or the call is out of memory, or the words are not UTF-8. */
#define INSTANTS_FAILED 1
/* The words are wrong, or a description among them is. */
#define INSTANTS_REFUSED 2

/* The greatest limit that the words can name. The limit is the greatest length of a line that is not too long, in bytes. */
#define INSTANTS_GREATEST_LIMIT 1048576

/* So many bytes are always enough for the answer to a line and its line feed. */
#define INSTANTS_LINE_ROOM 36

/* So many bytes are always enough for the answers to an input with this number of line feeds. */
#define INSTANTS_ROOM(line_feeds) (INSTANTS_LINE_ROOM * ((size_t)(line_feeds) + 1))

/*
 * Faults as numbers, which never change. INSTANTS_FAULT_COMPONENT and INSTANTS_FAULT_RANGE come with the number of a component
 * added, as 201 for `! component year` and 503 for `! range day`.
 */
#define INSTANTS_FAULT_LITERAL 100
#define INSTANTS_FAULT_COMPONENT 200
#define INSTANTS_FAULT_TRAILING 300
#define INSTANTS_FAULT_INSUFFICIENT 400
#define INSTANTS_FAULT_RANGE 500
#define INSTANTS_FAULT_YEAR 600
#define INSTANTS_FAULT_LONG 700

/*
 * Components, by the name that stands in the text of a fault. The number 0 in their place is a name without a number; none is
 * known to occur, and the text has the name.
 */
#define INSTANTS_COMPONENT_YEAR 1
#define INSTANTS_COMPONENT_MONTH 2
#define INSTANTS_COMPONENT_DAY 3
#define INSTANTS_COMPONENT_ORDINAL 4
#define INSTANTS_COMPONENT_WEEK 5
#define INSTANTS_COMPONENT_WEEK_NUMBER 6 /* `week number` */
#define INSTANTS_COMPONENT_WEEKDAY 7
#define INSTANTS_COMPONENT_HOUR 8
#define INSTANTS_COMPONENT_MINUTE 9
#define INSTANTS_COMPONENT_SECOND 10
#define INSTANTS_COMPONENT_SUBSECOND 11
#define INSTANTS_COMPONENT_PERIOD 12
#define INSTANTS_COMPONENT_OFFSET_HOUR 13   /* `offset hour` */
#define INSTANTS_COMPONENT_OFFSET_MINUTE 14 /* `offset minute` */
#define INSTANTS_COMPONENT_OFFSET_SECOND 15 /* `offset second` */
#define INSTANTS_COMPONENT_UNIX_TIMESTAMP 16 /* `unix_timestamp` */
#define INSTANTS_COMPONENT_IGNORE 17
#define INSTANTS_COMPONENT_SEPARATOR 18
#define INSTANTS_COMPONENT_JULIAN_DAY 19 /* `julian_day` */
#define INSTANTS_COMPONENT_MILLISECOND 20
#define INSTANTS_COMPONENT_MICROSECOND 21
#define INSTANTS_COMPONENT_NANOSECOND 22
#define INSTANTS_COMPONENT_HOURS 23
#define INSTANTS_COMPONENT_MINUTES 24
#define INSTANTS_COMPONENT_SECONDS 25
#define INSTANTS_COMPONENT_TIMESTAMP 26

/*
 * Answers each line of the input as the words say. The answers are written from the beginning of the output, each followed by
 * a line feed.
 *
 * INSTANTS_OK: `*written` bytes are written. The bytes of the output after them are unchanged.
 * INSTANTS_FAILED: if `*written` is 0, nothing is written. Otherwise the output is full and holds the beginning of the
 * answers, which are longer. If the output has length 0, that is no byte. INSTANTS_ROOM bytes are always enough.
 * INSTANTS_REFUSED: `*written` is 0, and nothing is written. `instants_sentence` says what is refused.
 */
uint8_t instants_answer_lines(const void *words, size_t words_len, const void *input, size_t input_len,
                              void *output, size_t output_len, size_t *written);

/*
 * Only checks the words, and writes a sentence on what is refused to the output: the sentence that the program prints, without
 * a line feed, cut to the length of the output. `*sentence_len` is the length of the whole sentence.
 *
 * INSTANTS_OK: the words are accepted. The length is 0, and nothing is written.
 * INSTANTS_FAILED: the sentence is `instants: out of memory`, also where the words are not UTF-8.
 * INSTANTS_REFUSED: the words are wrong, or a description among them is.
 */
uint8_t instants_sentence(const void *words, size_t words_len, void *output, size_t output_len, size_t *sentence_len);

/* A handle: `{0}` while it is not open. The library owns what it points to. */
struct instants_handle {
    void *at;
};

/*
 * Opens a handle for the words. **Their text may not be freed, moved or changed before `instants_close`**: the handle
 * points into it.
 *
 * INSTANTS_OK: the handle is open. Close it by `instants_close` in the end.
 * INSTANTS_FAILED: the call is out of memory, or the words are not UTF-8. The handle is unchanged, and no memory is kept.
 * INSTANTS_REFUSED: the words are wrong, or a description among them is. The handle is unchanged, and no memory is kept.
 * `instants_sentence` says what is refused.
 */
uint8_t instants_open(const void *words, size_t words_len, struct instants_handle *handle);

/*
 * Answers each line of the input as `instants_answer_lines` does with the words with which the handle was opened. `at` is that
 * of an open handle. The call takes no memory.
 *
 * INSTANTS_OK: `*written` bytes are written. The bytes of the output after them are unchanged.
 * INSTANTS_FAILED: the output is too small. It is full and holds the beginning of the answers, which are longer.
 * INSTANTS_ROOM bytes are always enough.
 */
uint8_t instants_answer(const void *at, const void *input, size_t input_len, void *output, size_t output_len, size_t *written);

/* What a line names: a moment, or a fault. */
struct instants_moment {
    /* The seconds since 1970-01-01T00:00:00Z, rounded down, so below 0 for earlier moments. 0 where there is a fault. */
    int64_t seconds;
    /* The nanoseconds after them, 0 to 999,999,999. 0 where there is a fault. */
    uint32_t nanoseconds;
    /* 0 for a moment, otherwise the number of the fault. */
    uint32_t fault;
};

/*
 * Writes the moment or the fault of each line, one entry a line from the beginning of the moments, for the lines and faults of
 * `instants_answer`. `at` is that of an open handle, `moments_len` counts entries. The call takes no memory.
 *
 * INSTANTS_OK: `*written` entries are written. The entries after them are unchanged.
 * INSTANTS_FAILED: there are more lines than entries. All entries are written; they are those of the first lines. As many
 * entries as there are line feeds, and one more, are always enough.
 */
uint8_t instants_answer_moments(const void *at, const void *input, size_t input_len, struct instants_moment *moments,
                                size_t moments_len, size_t *written);

/* Closes an open handle, whose `at` is given, and frees all memory that it keeps. */
void instants_close(void *at);

/* Why a line has no date, as numbers, which never change. */
/* No source reads a date in the line. */
#define INSTANTS_REASON_NONE 100
/* The date is in doubt; this number, if no source says why. */
#define INSTANTS_REASON_DOUBT 200
/* A word or a clock goes on after it. */
#define INSTANTS_REASON_GOES_ON 201
/* A clock with seconds stands before it. */
#define INSTANTS_REASON_CLOCK_IN_FRONT 202
/* The clock of the zone was put forward over it. */
#define INSTANTS_REASON_SKIPPED 203
/* The clock of the zone was put back over it. */
#define INSTANTS_REASON_REPEATED 204
/* The line says another offset than the one that was given for it. */
#define INSTANTS_REASON_ANOTHER_OFFSET 205
/* The line says another time of day. */
#define INSTANTS_REASON_ANOTHER_TIME 206
/* The line says another year. */
#define INSTANTS_REASON_ANOTHER_YEAR 207
/* In a member of an object in JSON an escape stands in it or near behind it. */
#define INSTANTS_REASON_ESCAPE 208
/* The year at the target offset is not 0 to 9999. */
#define INSTANTS_REASON_YEAR 600

/* So many bytes are always enough for the keys of an input with this number of line feeds, where the label has so many bytes. */
#define INSTANTS_LINES_ROOM(input_len, line_feeds, label_len) \
    ((size_t)(input_len) + (66 + (size_t)(label_len)) * ((size_t)(line_feeds) + 1))

/* A handle for lines: `{0}` while it is not open. The library owns what it points to. */
struct instants_lines_handle {
    void *at;
};

/*
 * What lines take of those above them: `{0}` at the beginning. In mode `carry` a line without a date takes the key of the last line with
 * one, and a line that begins deeper than that one goes on with it. An input that is cut after line feeds is given block by block,
 * with what the call for the block before has left here: the outputs of the blocks, joined in order, are the output of the whole
 * input. (Where the words give the year of the first date by `year`, it is that of the first date of each block.)
 */
struct instants_lines_above {
    /* How deep the last line with a date begins, if one is above. */
    size_t indent;
    /* 0 at the beginning, 1 below lines without a date, 2 below a line with one. */
    uint32_t state;
    /* How many bytes the key has, at most 63. */
    uint32_t len;
    /* The key that a line without a date takes, as `2021-01-02T03:04:05.000000000Z`. */
    uint8_t key[64];
};

/*
 * Opens a handle for lines, for the words and the bytes of the file of the zone that they name, or none. **The text of the words may not
 * be freed, moved or changed before `instants_lines_close`**; the bytes of the zone may be.
 *
 * INSTANTS_OK: the handle is open. Close it by `instants_lines_close` in the end.
 * INSTANTS_FAILED: the call is out of memory, or the words are not UTF-8. The handle is unchanged, and no memory is kept.
 * INSTANTS_REFUSED: the words are wrong, or a source among them is no description or can name no moment, or the mode is none of
 * `key` and `carry`, or the bytes are no zone's file, or the words name a zone and there are no bytes. The handle is unchanged, and no
 * memory is kept. `instants_lines_sentence` says what is refused.
 */
uint8_t instants_lines_open(const void *words, size_t words_len, const void *zone, size_t zone_len,
                            struct instants_lines_handle *handle);

/*
 * Writes each line of the input after the key of its date and a tab, as the program does, each with a line feed, from the beginning of
 * the output. `at` is that of an open handle for lines. The call takes no memory.
 *
 * INSTANTS_OK: `*written` bytes are written. The bytes of the output after them are unchanged. `*above` has what lines below take.
 * INSTANTS_FAILED: the output is too small. It is full and holds the beginning of what there is to write, and `*above` is unchanged.
 * INSTANTS_LINES_ROOM bytes are always enough.
 */
uint8_t instants_lines_keys(const void *at, const void *input, size_t input_len, void *output, size_t output_len, size_t *written,
                            struct instants_lines_above *above);

/* The date inside a line, or why it has none. */
struct instants_lines_date {
    /* The seconds since 1970-01-01T00:00:00Z, rounded down, so below 0 for earlier moments. 0 where there is no moment. */
    int64_t seconds;
    /* The nanoseconds after them, 0 to 999,999,999. 0 where there is no moment. */
    uint32_t nanoseconds;
    /* 0 for a moment, otherwise the number of the reason. */
    uint32_t reason;
    /* The place of the first byte of the line that says something of the date, from 0, also of one in doubt. 0 where none is read. */
    size_t start;
    /* The place after the last such byte. 0 where none is read. */
    size_t end;
};

/*
 * Writes the date of each line, one entry a line from the beginning of the dates: that of which `instants_lines_keys` writes the key,
 * and the first reason that mode `locate` of the program tells. A line that goes on with the one above, in mode `carry`, has none. Each
 * call begins anew. `at` is that of an open handle for lines, `dates_len` counts entries. The call takes no memory.
 *
 * INSTANTS_OK: `*written` entries are written. The entries after them are unchanged.
 * INSTANTS_FAILED: there are more lines than entries. All entries are written; they are those of the first lines. As many
 * entries as there are line feeds, and one more, are always enough.
 */
uint8_t instants_lines_dates(const void *at, const void *input, size_t input_len, struct instants_lines_date *dates,
                             size_t dates_len, size_t *written);

/* Closes an open handle for lines, whose `at` is given, and frees all memory that it keeps. */
void instants_lines_close(void *at);

/*
 * Only checks the words and the zone as `instants_lines_open` does, and writes a sentence on what is refused to the output, without a
 * line feed, cut to the length of the output. `*sentence_len` is the length of the whole sentence.
 *
 * INSTANTS_OK: they are accepted. The length is 0, and nothing is written.
 * INSTANTS_FAILED: the sentence is `instants-lines: out of memory`, also where the words are not UTF-8.
 * INSTANTS_REFUSED: as for `instants_lines_open`.
 */
uint8_t instants_lines_sentence(const void *words, size_t words_len, const void *zone, size_t zone_len, void *output,
                                size_t output_len, size_t *sentence_len);

/* The version of the library, in the form of INSTANTS_VERSION, which is that of the header. */
uint32_t instants_version(void);

/*
 * NULL where a length is 0. The library's own symbols need an address also there. So each call that takes such a pointer is
 * replaced here by a function with the same arguments, which passes an address where the length is 0. (`__inline__`, since C89
 * has no `inline`.)
 */
static __inline__ void *instants_some(const void *at, size_t len)
{
    static int64_t none;
    return len ? (void *)(uintptr_t)at : &none;
}

static __inline__ uint8_t instants_answer_lines_of(const void *words, size_t words_len, const void *input,
                                                   size_t input_len, void *output, size_t output_len, size_t *written)
{
    return instants_answer_lines(instants_some(words, words_len), words_len, instants_some(input, input_len), input_len,
                                 instants_some(output, output_len), output_len, written);
}

static __inline__ uint8_t instants_sentence_of(const void *words, size_t words_len, void *output, size_t output_len,
                                               size_t *sentence_len)
{
    return instants_sentence(instants_some(words, words_len), words_len, instants_some(output, output_len), output_len,
                             sentence_len);
}

static __inline__ uint8_t instants_open_of(const void *words, size_t words_len, struct instants_handle *handle)
{
    return instants_open(instants_some(words, words_len), words_len, handle);
}

static __inline__ uint8_t instants_answer_of(const void *at, const void *input, size_t input_len, void *output,
                                             size_t output_len, size_t *written)
{
    return instants_answer(at, instants_some(input, input_len), input_len, instants_some(output, output_len), output_len,
                           written);
}

static __inline__ uint8_t instants_answer_moments_of(const void *at, const void *input, size_t input_len,
                                                     struct instants_moment *moments, size_t moments_len, size_t *written)
{
    return instants_answer_moments(at, instants_some(input, input_len), input_len,
                                   (struct instants_moment *)instants_some(moments, moments_len), moments_len, written);
}

static __inline__ uint8_t instants_lines_open_of(const void *words, size_t words_len, const void *zone, size_t zone_len,
                                                 struct instants_lines_handle *handle)
{
    return instants_lines_open(instants_some(words, words_len), words_len, instants_some(zone, zone_len), zone_len, handle);
}

static __inline__ uint8_t instants_lines_keys_of(const void *at, const void *input, size_t input_len, void *output,
                                                 size_t output_len, size_t *written, struct instants_lines_above *above)
{
    return instants_lines_keys(at, instants_some(input, input_len), input_len, instants_some(output, output_len), output_len,
                               written, above);
}

static __inline__ uint8_t instants_lines_dates_of(const void *at, const void *input, size_t input_len,
                                                  struct instants_lines_date *dates, size_t dates_len, size_t *written)
{
    return instants_lines_dates(at, instants_some(input, input_len), input_len,
                                (struct instants_lines_date *)instants_some(dates, dates_len), dates_len, written);
}

static __inline__ uint8_t instants_lines_sentence_of(const void *words, size_t words_len, const void *zone, size_t zone_len,
                                                     void *output, size_t output_len, size_t *sentence_len)
{
    return instants_lines_sentence(instants_some(words, words_len), words_len, instants_some(zone, zone_len), zone_len,
                                   instants_some(output, output_len), output_len, sentence_len);
}

#define instants_answer_lines instants_answer_lines_of
#define instants_sentence instants_sentence_of
#define instants_open instants_open_of
#define instants_answer instants_answer_of
#define instants_answer_moments instants_answer_moments_of
#define instants_lines_open instants_lines_open_of
#define instants_lines_keys instants_lines_keys_of
#define instants_lines_dates instants_lines_dates_of
#define instants_lines_sentence instants_lines_sentence_of

#ifdef __cplusplus
}
#endif

#endif
