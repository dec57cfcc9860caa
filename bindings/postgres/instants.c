/*
 * Functions for PostgreSQL: `instant(target, sources, line)` is the answer to a text as a line, as the program answers it,
 * `instant_fault` what is wrong with the text, or NULL, and `instant_at(sources, line)` its moment as a timestamptz, or NULL.
 * A last argument is the offset that is assumed for texts without one.
 *
 *     SELECT instant('+00:00', '{rfc3339,strftime,%d/%b/%Y:%H:%M:%S %z}', '01/Jan/2021:22:04:07 -0500');
 *     2021-01-02T03:04:07.000000000Z
 *     SELECT instant_at('{rfc3339}', '2021-01-02T04:04:05+01:00') AT TIME ZONE 'UTC';
 *     2021-01-02 03:04:05
 *
 * Targets, sources and offsets are the program's words. They decide the answer alone, so the functions are immutable. Of a
 * text with line feeds the answer is those to its lines, with a line feed between them, and the fault the first of these; such
 * a text has no one moment, so its timestamptz is NULL.
 *
 * Words that stay from row to row are read once: a reader of them is kept with the call in the query, and is asked as long as
 * the arguments are those that it was made of.
 */
#include "postgres.h"

#include "catalog/pg_type.h"
#include "fmgr.h"
#include "lib/stringinfo.h"
#include "mb/pg_wchar.h"
#include "utils/array.h"
#include "utils/builtins.h"
#include "utils/memutils.h"
#include "utils/timestamp.h"

#include <instants.h>

PG_MODULE_MAGIC;
PG_FUNCTION_INFO_V1(instant);
PG_FUNCTION_INFO_V1(instant_fault);
PG_FUNCTION_INFO_V1(instant_at);

/* The seconds from 1970, where moments begin to count, to 2000, where a timestamptz does. */
#define SECONDS_TO_EPOCH ((int64) (POSTGRES_EPOCH_JDATE - UNIX_EPOCH_JDATE) * SECS_PER_DAY)

/* What a call is given: the text, and the arguments by which it is read. The target is NULL where it is UTC. */
struct arguments
{
	text	   *target,
			   *assumed,
			   *line;
	ArrayType  *sources;
};

/* The answers to a text, each with its line feed, in a text of which the length is not set. */
struct answers
{
	text	   *text;
	size_t		len;
};

/* An open handle, its words, and the arguments of which they are made: all in a context, with whose end the handle is closed. */
struct reader
{
	MemoryContext context;
	MemoryContextCallback at_end;
	struct instants_handle handle;
	StringInfoData words;
	text	   *target,
			   *assumed;
	ArrayType  *sources;
};

static void
refuse_word(const char *why)
{
	ereport(ERROR, (errcode(ERRCODE_INVALID_PARAMETER_VALUE), errmsg("instants: %s", why)));
}

/* Puts a word after the others, with a line feed before it. */
static void
put_word(StringInfo words, const text *word)
{
	const char *bytes = VARDATA_ANY(word);
	int			len = VARSIZE_ANY_EXHDR(word);

	if (memchr(bytes, '\n', len))
		refuse_word("a word has a line feed");
	if (words->len > 0)
		appendStringInfoChar(words, '\n');
	appendBinaryStringInfo(words, bytes, len);
}

static void
put_sources(StringInfo words, ArrayType *sources)
{
	Datum	   *elements;
	bool	   *nulls;
	int			count;

	deconstruct_array(sources, TEXTOID, -1, false, TYPALIGN_INT, &elements, &nulls, &count);
	for (int at = 0; at < count; at++)
	{
		if (nulls[at])
			refuse_word("a source is null");
		put_word(words, DatumGetTextPP(elements[at]));
	}
}

/* Puts the words of a reader in one text: the limit is the greatest. */
static void
put_words(struct reader *reader)
{
	if (GetDatabaseEncoding() != PG_UTF8 && GetDatabaseEncoding() != PG_SQL_ASCII)
		ereport(ERROR, (errcode(ERRCODE_FEATURE_NOT_SUPPORTED), errmsg("instants: the database is not in UTF-8")));
	initStringInfo(&reader->words);
	if (reader->target)
		put_word(&reader->words, reader->target);
	else
		appendStringInfoString(&reader->words, "+00:00");
	put_word(&reader->words, reader->assumed);
	appendStringInfo(&reader->words, "\n%d", INSTANTS_GREATEST_LIMIT);
	put_sources(&reader->words, reader->sources);
}

/* Raises what is refused of the words. */
static void
refuse(const StringInfoData *words)
{
	char		sentence[1024];
	size_t		len;

	instants_sentence(words->data, words->len, sentence, sizeof sentence, &len);
	len = pg_mbcliplen(sentence, Min(len, sizeof sentence), sizeof sentence - 1);
	ereport(ERROR, (errcode(ERRCODE_INVALID_PARAMETER_VALUE), errmsg("%.*s", (int) len, sentence)));
}

static size_t
line_feeds(const char *bytes, size_t len)
{
	size_t		count = 0;

	for (size_t at = 0; at < len; at++)
		count += bytes[at] == '\n';
	return count;
}

static void
close_reader(void *kept)
{
	struct reader *reader = kept;

	if (reader->handle.at)
		instants_close(reader->handle.at);
}

/* Makes a reader, without words, which is kept from now on. */
static struct reader *
make_reader(FmgrInfo *call)
{
	MemoryContext context = AllocSetContextCreate(call->fn_mcxt, "instants", ALLOCSET_SMALL_SIZES);
	struct reader *reader = MemoryContextAllocZero(context, sizeof *reader);

	reader->context = context;
	reader->at_end.func = close_reader;
	reader->at_end.arg = reader;
	MemoryContextRegisterResetCallback(context, &reader->at_end);
	call->fn_extra = reader;
	return reader;
}

/* Opens a reader of the arguments, or raises why there is none. */
static void
open_reader(struct reader *reader, const struct arguments *given)
{
	MemoryContext before = MemoryContextSwitchTo(reader->context);
	uint8_t		status;

	if (given->target)
		reader->target = DatumGetTextPCopy(PointerGetDatum(given->target));
	reader->sources = DatumGetArrayTypePCopy(PointerGetDatum(given->sources));
	reader->assumed = DatumGetTextPCopy(PointerGetDatum(given->assumed));
	put_words(reader);
	status = instants_open(reader->words.data, reader->words.len, &reader->handle);
	if (status == INSTANTS_REFUSED)
		refuse(&reader->words);
	if (status != INSTANTS_OK)
		ereport(ERROR, (errcode(ERRCODE_OUT_OF_MEMORY), errmsg("instants: out of memory")));
	MemoryContextSwitchTo(before);
}

/* Whether two values have the same bytes. */
static bool
is_same(const void *left, const void *right)
{
	size_t		len = VARSIZE_ANY_EXHDR(left);

	return len == VARSIZE_ANY_EXHDR(right) && memcmp(VARDATA_ANY(left), VARDATA_ANY(right), len) == 0;
}

/* Whether a reader was made of just these arguments; at one place of a query either all calls have a target, or none has one. */
static bool
is_of(const struct reader *reader, const struct arguments *given)
{
	return (!given->target || is_same(reader->target, given->target)) && is_same(reader->sources, given->sources) &&
		is_same(reader->assumed, given->assumed);
}

/* What is kept of the reader of the arguments: that of the call before, or a new one, which is kept in its place. */
static const void *
reader_of(FmgrInfo *call, const struct arguments *given)
{
	struct reader *reader = call->fn_extra;

	if (reader && reader->handle.at && is_of(reader, given))
		return reader->handle.at;
	call->fn_extra = NULL;
	if (reader)
		MemoryContextDelete(reader->context);
	reader = make_reader(call);
	open_reader(reader, given);
	return reader->handle.at;
}

/* The arguments of a call with a target: target, sources, line, assumed. */
static struct arguments
with_target(FunctionCallInfo fcinfo)
{
	return (struct arguments) {
		.target = PG_GETARG_TEXT_PP(0), .sources = PG_GETARG_ARRAYTYPE_P(1), .line = PG_GETARG_TEXT_PP(2),
		.assumed = PG_GETARG_TEXT_PP(3)
	};
}

/* The arguments of a call without one: sources, line, assumed. */
static struct arguments
in_utc(FunctionCallInfo fcinfo)
{
	return (struct arguments) {
		.sources = PG_GETARG_ARRAYTYPE_P(0), .line = PG_GETARG_TEXT_PP(1), .assumed = PG_GETARG_TEXT_PP(2)
	};
}

/* Puts the answers to lines after others; there is room for them. */
static void
put_answers(struct answers *answers, const void *at, const char *lines, size_t len, size_t room)
{
	size_t		written;

	instants_answer(at, lines, len, VARDATA(answers->text) + answers->len, room - answers->len, &written);
	answers->len += written;
}

/* Answers the lines of a text; after its last line feed, and where it is empty, there is an empty one. */
static struct answers
answer(FunctionCallInfo fcinfo)
{
	struct arguments given = with_target(fcinfo);
	const void *at = reader_of(fcinfo->flinfo, &given);
	const char *lines = VARDATA_ANY(given.line);
	size_t		len = VARSIZE_ANY_EXHDR(given.line),
				room = INSTANTS_ROOM(line_feeds(lines, len));
	struct answers answers = {palloc_extended(VARHDRSZ + room, MCXT_ALLOC_HUGE), 0};

	put_answers(&answers, at, lines, len, room);
	if (len == 0 || lines[len - 1] == '\n')
		put_answers(&answers, at, "\n", 1, room);
	if (VARHDRSZ + answers.len > MaxAllocSize)
		ereport(ERROR, (errcode(ERRCODE_PROGRAM_LIMIT_EXCEEDED), errmsg("instants: the answers are too long")));
	return answers;
}

Datum
instant(PG_FUNCTION_ARGS)
{
	struct answers answers = answer(fcinfo);

	SET_VARSIZE(answers.text, VARHDRSZ + answers.len - 1);
	PG_RETURN_TEXT_P(answers.text);
}

Datum
instant_fault(PG_FUNCTION_ARGS)
{
	struct answers answers = answer(fcinfo);
	const char *at = VARDATA(answers.text),
			   *end = at + answers.len;

	while (at < end && *at != '!')
		at = (const char *) memchr(at, '\n', end - at) + 1;
	if (at == end)
		PG_RETURN_NULL();
	PG_RETURN_TEXT_P(cstring_to_text_with_len(at + 2, (int) ((const char *) memchr(at, '\n', end - at) - at) - 2));
}

/* The moment of a line, rounded down to microseconds. All years of moments, 0 to 9999, are years of a timestamptz too. */
static TimestampTz
timestamp_of(const struct instants_moment *moment)
{
	return (moment->seconds - SECONDS_TO_EPOCH) * USECS_PER_SEC + moment->nanoseconds / 1000;
}

Datum
instant_at(PG_FUNCTION_ARGS)
{
	struct arguments given = in_utc(fcinfo);
	const void *at = reader_of(fcinfo->flinfo, &given);
	const char *line = VARDATA_ANY(given.line);
	size_t		len = VARSIZE_ANY_EXHDR(given.line),
				count;
	struct instants_moment moment;

	/* (the library sees no line in an empty text) */
	if (len == 0 || memchr(line, '\n', len))
		PG_RETURN_NULL();
	instants_answer_moments(at, line, len, &moment, 1, &count);
	if (moment.fault)
		PG_RETURN_NULL();
	PG_RETURN_TIMESTAMPTZ(timestamp_of(&moment));
}
