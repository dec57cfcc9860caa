/* `c_peer TARGET - LIMIT SOURCE..`: C by hand, with little left to gain by plain code of one thread. It reads blocks,
   takes eight digits at a time as one word, and writes two at a time from a table. Each line is read by the first
   source that takes it, and written at the target offset with nine digits of a fraction. A line that no source takes
   is answered by `! invalid`.

   A source is `rfc3339`, `rfc2822` or `%d/%b/%Y:%H:%M:%S %z`. The status is 1 where memory, reading or writing failed,
   and 2 where the words are wrong or a line is as long as a block. */

#include <stdint.h>
#include <stdio.h>
#include <stdlib.h>
#include <string.h>
#include <unistd.h>

enum { BLOCK = 1 << 18, SLACK = 4096, MOST_SOURCES = 8 };

/* What a line says: the days since 0000-01-01 and the seconds of the day by wall clock, nanoseconds, and an offset in
   seconds. */
typedef struct {
    uint32_t days;
    uint32_t seconds;
    uint32_t nanoseconds;
    int32_t offset;
} Moment;

/* Reads a line that begins here and has so many bytes. Up to eight bytes behind the line are loaded too. */
typedef int Reader(const unsigned char *text, size_t length, Moment *moment);

/* Where answers are shown: the offset in seconds, and what ends a line there, with its line feed. */
typedef struct {
    int32_t offset;
    char end[8];
    size_t end_length;
} Target;

/* The sources in order, whether that is RFC 3339 alone, and the greatest length of a line. */
typedef struct {
    Reader *sources[MOST_SOURCES];
    int count;
    int is_rfc3339_alone;
    size_t limit;
} Plan;

static const uint8_t LENGTHS[13] = {0, 31, 28, 31, 30, 31, 30, 31, 31, 30, 31, 30, 31};

/* Filled once: 00 to 99 in digits; by whether the year is a leap year and by month, days before it and in it. */
static char two_digits[200];
static uint32_t days_before[2][16];
static uint8_t days_in[2][16];

static void fill_tables(void) {
    for (int number = 0; number < 100; number++) {
        two_digits[2 * number] = '0' + number / 10;
        two_digits[2 * number + 1] = '0' + number % 10;
    }
    for (int leap = 0; leap < 2; leap++) {
        uint32_t before = 0;
        for (int month = 1; month <= 12; month++) {
            days_before[leap][month] = before;
            days_in[leap][month] = LENGTHS[month] + (leap && month == 2);
            before += days_in[leap][month];
        }
    }
}

/* Words of bytes: the first byte is the lowest. */

static inline uint64_t load8(const unsigned char *text) {
    uint64_t word;
    memcpy(&word, text, 8);
    return word;
}

static inline uint32_t load4(const unsigned char *text) {
    uint32_t word;
    memcpy(&word, text, 4);
    return word;
}

static inline int all_digits(uint64_t word) {
    uint64_t high = word & 0xf0f0f0f0f0f0f0f0;
    uint64_t carried = (word + 0x0606060606060606) & 0xf0f0f0f0f0f0f0f0;
    return (high | carried >> 4) == 0x3333333333333333;
}

/* The four numbers of two digits each, in the bytes 0, 2, 4 and 6; the bytes between them mean nothing. */
static inline uint64_t numbers_of_two(uint64_t digits) {
    return (digits & 0x0f0f0f0f0f0f0f0f) * 2561 >> 8;
}

/* The number of eight digits. */
static inline uint32_t number_of_eight(uint64_t digits) {
    uint64_t fours = (numbers_of_two(digits) & 0x00ff00ff00ff00ff) * 6553601 >> 16;
    return (uint32_t)((fours & 0x0000ffff0000ffff) * 42949672960001 >> 32);
}

static inline int is_digit(unsigned char byte) {
    return (unsigned)(byte - '0') < 10;
}

/* The pieces of a line. Each answers 1, or 0 where it does not stand there. */

static inline int is_leap(uint32_t year) {
    return (year & 3) == 0 && (year % 100 != 0 || (year & 15) == 0);
}

static inline int read_date(uint32_t year, uint32_t month, uint32_t day, uint32_t *days) {
    if (month - 1 >= 12) return 0;
    int leap = is_leap(year);
    if (day - 1 >= days_in[leap][month]) return 0;
    uint32_t leap_days = (year + 3) / 4 - (year + 99) / 100 + (year + 399) / 400;
    *days = year * 365 + leap_days + days_before[leap][month] + day - 1;
    return 1;
}

/* `HH:MM:SS` */
static inline int read_clock(const unsigned char *text, uint32_t *seconds) {
    uint64_t word = load8(text);
    if ((word & 0x0000ff0000ff0000) != 0x00003a00003a0000) return 0;
    uint64_t digits = (word & 0xffff) | (word & 0xffff000000) >> 8 | (word & 0xffff000000000000) >> 16 |
                      0x3030000000000000;
    if (!all_digits(digits)) return 0;
    uint64_t numbers = numbers_of_two(digits);
    uint32_t hour = numbers & 0xff, minute = numbers >> 16 & 0xff, second = numbers >> 32 & 0xff;
    if (hour > 23 || minute > 59 || second > 59) return 0;
    *seconds = hour * 3600 + minute * 60 + second;
    return 1;
}

/* An offset of this sign and these hours and minutes, of two digits each. */
static inline int read_offset(unsigned char sign, const unsigned char *hours, const unsigned char *minutes,
                              int32_t *offset) {
    uint32_t a = hours[0] - '0', b = hours[1] - '0', c = minutes[0] - '0', d = minutes[1] - '0';
    if (a > 9 || b > 9 || c > 5 || d > 9 || a * 10 + b > 23) return 0;
    int32_t east = (int32_t)((a * 10 + b) * 3600 + (c * 10 + d) * 60);
    *offset = sign == '-' ? -east : east;
    return 1;
}

static inline int is_sign(unsigned char byte) {
    return byte == '+' || byte == '-';
}

static inline int read_year(const unsigned char *text, uint32_t *year) {
    if (!all_digits((uint64_t)load4(text) | 0x3030303000000000)) return 0;
    *year = (text[0] - '0') * 1000 + (text[1] - '0') * 100 + (text[2] - '0') * 10 + (text[3] - '0');
    return 1;
}

#define NAME(a, b, c) ((a) | (b) << 8 | (c) << 16)

/* The month of a name of three letters, or 0. */
static inline uint32_t month_of(const unsigned char *text) {
    switch (load4(text) & 0xffffff) {
    case NAME('J', 'a', 'n'): return 1;
    case NAME('F', 'e', 'b'): return 2;
    case NAME('M', 'a', 'r'): return 3;
    case NAME('A', 'p', 'r'): return 4;
    case NAME('M', 'a', 'y'): return 5;
    case NAME('J', 'u', 'n'): return 6;
    case NAME('J', 'u', 'l'): return 7;
    case NAME('A', 'u', 'g'): return 8;
    case NAME('S', 'e', 'p'): return 9;
    case NAME('O', 'c', 't'): return 10;
    case NAME('N', 'o', 'v'): return 11;
    case NAME('D', 'e', 'c'): return 12;
    }
    return 0;
}

static inline int is_weekday(const unsigned char *text) {
    switch (load4(text) & 0xffffff) {
    case NAME('M', 'o', 'n'):
    case NAME('T', 'u', 'e'):
    case NAME('W', 'e', 'd'):
    case NAME('T', 'h', 'u'):
    case NAME('F', 'r', 'i'):
    case NAME('S', 'a', 't'):
    case NAME('S', 'u', 'n'): return 1;
    }
    return 0;
}

/* A fraction's digits to nanoseconds; moves behind them. Eight are one word, of which the first byte that is no digit
   ends them; the rest of the word counts as zeros. */
static inline int read_fraction(const unsigned char **at, uint32_t *nanoseconds) {
    const unsigned char *text = *at;
    uint64_t digits = load8(text) ^ 0x3030303030303030;
    uint64_t stop = ((digits + 0x7676767676767676) | digits) & 0x8080808080808080;
    if (stop) {
        unsigned bits = __builtin_ctzll(stop) & ~7u;
        if (bits == 0) return 0;
        *nanoseconds = number_of_eight(digits & ((1ull << bits) - 1)) * 10;
        *at = text + (bits >> 3);
        return 1;
    }
    *nanoseconds = number_of_eight(digits) * 10;
    text += 8;
    if (is_digit(*text)) *nanoseconds += *text++ - '0';
    while (is_digit(*text)) text++;
    *at = text;
    return 1;
}

/* The sources */

/* `YYYY-MM-DDT` */
static inline int read_extended_date(const unsigned char *text, uint32_t *days) {
    uint64_t front = load8(text), back = load4(text + 7);
    if ((front >> 32 & 0xff) != '-' || front >> 56 != '-' || (back >> 24 | 32) != 't') return 0;
    uint64_t digits = (front & 0xffffffff) | (front & 0x00ffff0000000000) >> 8 | (back & 0xffff00) << 40;
    if (!all_digits(digits)) return 0;
    uint64_t numbers = numbers_of_two(digits);
    uint32_t year = (numbers & 0xff) * 100 + (numbers >> 16 & 0xff);
    return read_date(year, numbers >> 32 & 0xff, numbers >> 48 & 0xff, days);
}

/* A call takes some 14 instructions, so the loop over the lines has it inside where it is the only source. */
static inline __attribute__((always_inline)) int read_rfc3339(const unsigned char *text, size_t length,
                                                              Moment *moment) {
    if (length < 20 || !read_extended_date(text, &moment->days) || !read_clock(text + 11, &moment->seconds)) return 0;
    const unsigned char *at = text + 19, *end = text + length;
    moment->nanoseconds = 0;
    if (*at == '.') {
        at++;
        if (!read_fraction(&at, &moment->nanoseconds) || at > end) return 0;
    }
    if (end - at == 1 && (*at | 32) == 'z') {
        moment->offset = 0;
        return 1;
    }
    if (end - at != 6 || !is_sign(*at) || at[3] != ':') return 0;
    return read_offset(*at, at + 1, at + 4, &moment->offset);
}

/* `HH:MM:SS +HHMM` */
static inline int read_clock_and_offset(const unsigned char *text, Moment *moment) {
    moment->nanoseconds = 0;
    if (!read_clock(text, &moment->seconds) || text[8] != ' ' || !is_sign(text[9])) return 0;
    return read_offset(text[9], text + 10, text + 12, &moment->offset);
}

static int read_rfc2822(const unsigned char *text, size_t length, Moment *moment) {
    if (length < 30 || length > 31 || text[3] != ',' || text[4] != ' ' || !is_weekday(text)) return 0;
    uint32_t day = text[5] - '0', year;
    if (day > 9) return 0;
    const unsigned char *at = text + 6;
    if (length == 31) {
        uint32_t ones = *at++ - '0';
        if (ones > 9) return 0;
        day = day * 10 + ones;
    }
    if (at[0] != ' ' || at[4] != ' ' || at[9] != ' ' || !read_year(at + 5, &year)) return 0;
    return read_date(year, month_of(at + 1), day, &moment->days) && read_clock_and_offset(at + 10, moment);
}

static int read_log(const unsigned char *text, size_t length, Moment *moment) {
    if (length != 26 || text[2] != '/' || text[6] != '/' || text[11] != ':') return 0;
    uint32_t tens = text[0] - '0', ones = text[1] - '0', year;
    if (tens > 9 || ones > 9 || !read_year(text + 7, &year)) return 0;
    return read_date(year, month_of(text + 3), tens * 10 + ones, &moment->days) &&
           read_clock_and_offset(text + 12, moment);
}

/* Answers */

static inline void put_two(unsigned char *out, uint32_t number) {
    memcpy(out, two_digits + 2 * number, 2);
}

static inline void put_nanoseconds(unsigned char *out, uint32_t nanoseconds) {
    uint32_t high = nanoseconds / 10000, low = nanoseconds % 10000;
    out[0] = '0' + high / 10000;
    high %= 10000;
    put_two(out + 1, high / 100);
    put_two(out + 3, high % 100);
    put_two(out + 5, low / 100);
    put_two(out + 7, low % 100);
}

/* The date so many days after 0000-01-01, as `YYYY-MM-DD`: by years from March, with products for most quotients, as
   Neri and Schneider give it. */
static inline void put_date(unsigned char *out, uint32_t days) {
    uint32_t quarters = 4 * (days + 146097 - 60) + 3;
    uint32_t century = quarters / 146097;
    uint64_t product = (uint64_t)2939745 * (4 * (quarters % 146097 / 4) + 3);
    uint32_t day_of_year = (uint32_t)product / 2939745 / 4;
    uint32_t year = 100 * century + (uint32_t)(product >> 32) - 400;
    uint32_t scaled = 2141 * day_of_year + 197913;
    uint32_t month = scaled >> 16, day = (scaled & 0xffff) / 2141;
    if (day_of_year >= 306) {
        year++;
        month -= 12;
    }
    put_two(out, year / 100);
    put_two(out + 2, year % 100);
    out[4] = '-';
    put_two(out + 5, month);
    out[7] = '-';
    put_two(out + 8, day + 1);
}

/* Puts the line of a moment here, and gives its end; null where its year has not four digits at the target. */
static inline unsigned char *put_line(unsigned char *out, const Moment *moment, const Target *target) {
    int64_t shown = (int64_t)moment->days * 86400 + moment->seconds - moment->offset + target->offset;
    if (shown < 0) return 0;
    uint32_t days = (uint32_t)(shown / 86400), second = (uint32_t)(shown % 86400);
    if (days >= 3652425) return 0;
    put_date(out, days);
    out[10] = 'T';
    put_two(out + 11, second / 3600);
    out[13] = ':';
    put_two(out + 14, second / 60 % 60);
    out[16] = ':';
    put_two(out + 17, second % 60);
    out[19] = '.';
    put_nanoseconds(out + 20, moment->nanoseconds);
    memcpy(out + 29, target->end, sizeof target->end);
    return out + 29 + target->end_length;
}

/* The program */

static void write_block(const unsigned char *block, size_t length) {
    while (length) {
        ssize_t written = write(1, block, length);
        if (written <= 0) exit(1);
        block += written;
        length -= written;
    }
}

static inline int read_line(const Plan *plan, const unsigned char *text, size_t length, Moment *moment) {
    if (length > plan->limit) return 0;
    if (plan->is_rfc3339_alone) return read_rfc3339(text, length, moment);
    for (int i = 0; i < plan->count; i++)
        if (plan->sources[i](text, length, moment)) return 1;
    return 0;
}

/* Answers the whole lines from here to the end, writes blocks that are full, and gives where the rest begins. */
static const unsigned char *answer_lines(const unsigned char *at, const unsigned char *end, const Plan *plan,
                                         const Target *target, unsigned char *out, size_t *made) {
    const unsigned char *feed;
    while ((feed = memchr(at, '\n', end - at))) {
        Moment moment;
        int taken = read_line(plan, at, feed - at, &moment);
        unsigned char *next = taken ? put_line(out + *made, &moment, target) : 0;
        if (!next) {
            memcpy(out + *made, "! invalid\n", 10);
            next = out + *made + 10;
        }
        *made = next - out;
        if (*made >= BLOCK) {
            write_block(out, *made);
            *made = 0;
        }
        at = feed + 1;
    }
    return at;
}

/* Answers all of standard input, and gives the status. */
static int run(const Plan *plan, const Target *target) {
    unsigned char *in = malloc(2 * BLOCK + SLACK), *out = malloc(BLOCK + SLACK);
    if (!in || !out) return 1;
    size_t held = 0, made = 0;
    for (ssize_t got = 1; got != 0;) {
        got = read(0, in + held, BLOCK);
        if (got < 0) return 1;
        held += got;
        if (got == 0 && held > 0) in[held++] = '\n';
        const unsigned char *end = in + held;
        const unsigned char *rest = answer_lines(in, end, plan, target, out, &made);
        held = end - rest;
        if (held >= BLOCK) return 2;
        memmove(in, rest, held);
    }
    write_block(out, made);
    return 0;
}

/* Reads a word `+HH:MM` or `-HH:MM`. */
static int read_target(const char *word, Target *target) {
    const unsigned char *text = (const unsigned char *)word;
    if (strlen(word) != 6 || !is_sign(*text) || !read_offset(*text, text + 1, text + 4, &target->offset)) return 0;
    if (target->offset == 0)
        strcpy(target->end, "Z\n");
    else
        snprintf(target->end, sizeof target->end, "%s\n", word);
    target->end_length = strlen(target->end);
    return 1;
}

static Reader *reader_of(const char *word) {
    if (!strcmp(word, "rfc3339")) return read_rfc3339;
    if (!strcmp(word, "rfc2822")) return read_rfc2822;
    if (!strcmp(word, "%d/%b/%Y:%H:%M:%S %z")) return read_log;
    return 0;
}

int main(int count, char **words) {
    Target target;
    Plan plan = {.count = 0};
    if (count < 5 || count - 4 > MOST_SOURCES || !read_target(words[1], &target)) return 2;
    plan.limit = strtoul(words[3], 0, 10);
    for (int i = 4; i < count; i++) {
        plan.sources[plan.count] = reader_of(words[i]);
        if (!plan.sources[plan.count++]) return 2;
    }
    plan.is_rfc3339_alone = plan.count == 1 && plan.sources[0] == read_rfc3339;
    fill_tables();
    return run(&plan, &target);
}
