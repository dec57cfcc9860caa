/* `c_vector_peer TARGET - LIMIT SOURCE..`: C by hand by SSE4.2 (-march=x86-64-v2), of one thread, with little left to
   gain.

   The usual shape of each source is read by one or two vectors of sixteen bytes: all digits and literals are tested at
   once against a least and a greatest byte, and the line feed stands where the shape says, so nothing looks for it. No
   day is counted: an offset moves the wall clock by minutes alone. Year, month, day, second and fraction are copied
   from the line, hour and minute come from a table of 1440 texts, and only where the minute leaves the day is the day's
   text changed (and only at a month's end the month's and the year's). A line of another shape is read by plain code.

   A source is `rfc3339`, `rfc2822`, `iso8601` or `%d/%b/%Y:%H:%M:%S %z`. A line that no source takes is answered by
   `! invalid`. The status is 1 where reading failed, and 2 where a line is as long as a block. */
#include <nmmintrin.h>
#include <stdint.h>
#include <stdio.h>
#include <stdlib.h>
#include <string.h>
#include <unistd.h>

#ifndef BLOCK
#define BLOCK (1 << 17)
#endif
typedef unsigned char u8;
typedef struct {
    uint32_t days;
    uint32_t seconds;
    uint32_t nano;
    int32_t offset;
} moment;

static char pairs[256];
static uint32_t month_start[2][16];
static uint8_t month_days[2][16];

/* The plain way, for lines of another shape. */
static inline uint64_t load8(const u8 *p) {
    uint64_t x;
    memcpy(&x, p, 8);
    return x;
}
static inline uint32_t load4(const u8 *p) {
    uint32_t x;
    memcpy(&x, p, 4);
    return x;
}
static inline uint16_t load2(const u8 *p) {
    uint16_t x;
    memcpy(&x, p, 2);
    return x;
}
static inline int all_digits(uint64_t x) {
    return ((x & 0xf0f0f0f0f0f0f0f0ull) | (((x + 0x0606060606060606ull) & 0xf0f0f0f0f0f0f0f0ull) >> 4)) ==
           0x3333333333333333ull;
}
static inline uint32_t eight(uint64_t x) {
    x = (x & 0x0f0f0f0f0f0f0f0full) * 2561 >> 8;
    x = (x & 0x00ff00ff00ff00ffull) * 6553601 >> 16;
    return (uint32_t)((x & 0x0000ffff0000ffffull) * 42949672960001ull >> 32);
}
static inline int leap(uint32_t y) { return (y & 3) == 0 && (y % 100 != 0 || (y & 15) == 0); }
static inline uint32_t days_of(uint32_t y, uint32_t m, uint32_t d, int l) {
    return y * 365 + (y + 3) / 4 - (y + 99) / 100 + (y + 399) / 400 + month_start[l][m] + d - 1;
}
static inline int civil(uint32_t y, uint32_t m, uint32_t d, uint32_t *days) {
    if (m - 1 >= 12) return 0;
    int l = leap(y);
    if (d - 1 >= month_days[l][m]) return 0;
    *days = days_of(y, m, d, l);
    return 1;
}
static inline int clock8(const u8 *p, uint32_t *seconds) {
    uint64_t x = load8(p);
    if ((x & 0x0000ff0000ff0000ull) != 0x00003a00003a0000ull) return 0;
    uint64_t digits =
        (x & 0xffffull) | (x & 0xffff000000ull) >> 8 | (x & 0xffff000000000000ull) >> 16 | 0x3030000000000000ull;
    if (!all_digits(digits)) return 0;
    uint64_t t = (digits & 0x0f0f0f0f0f0f0f0full) * 2561 >> 8;
    uint32_t h = t & 0xff, m = t >> 16 & 0xff, s = t >> 32 & 0xff;
    if (h > 23 || m > 59 || s > 59) return 0;
    *seconds = h * 3600 + m * 60 + s;
    return 1;
}
/* the fraction and the offset behind the second, to the end */
static int tail3339(const u8 *q, const u8 *end, moment *o, int basic) {
    o->nano = 0;
    if (*q == '.') {
        uint64_t f = load8(++q) ^ 0x3030303030303030ull;
        uint64_t stop = ((f + 0x7676767676767676ull) | f) & 0x8080808080808080ull;
        if (stop) {
            unsigned bits = __builtin_ctzll(stop) & ~7u;
            if (bits == 0) return 0;
            q += bits >> 3;
            o->nano = eight(f & ((1ull << bits) - 1)) * 10;
        } else {
            o->nano = eight(f) * 10;
            q += 8;
            if ((unsigned)(*q - '0') < 10) o->nano += *q++ - '0';
            while ((unsigned)(*q - '0') < 10) q++;
        }
        if (q > end) return 0;
    }
    if (end - q == 1 && (*q | 32) == 'z') {
        o->offset = 0;
        return 1;
    }
    if (end - q != 6 - basic || (*q != '+' && *q != '-')) return 0;
    const u8 *m = q + 4 - basic;
    if (!basic && q[3] != ':') return 0;
    uint32_t a = q[1] - '0', b = q[2] - '0', c = m[0] - '0', e = m[1] - '0';
    if (a > 9 || b > 9 || c > 5 || e > 9) return 0;
    uint32_t h = a * 10 + b;
    if (h > 23) return 0;
    int32_t off = (int32_t)(h * 3600 + (c * 10 + e) * 60);
    o->offset = *q == '-' ? -off : off;
    return 1;
}
static __attribute__((noinline)) int rfc3339(const u8 *p, size_t n, moment *o) {
    if (n < 20) return 0;
    uint64_t x = load8(p), z = load4(p + 7);
    if ((x >> 32 & 0xff) != '-' || (x >> 56) != '-' || (z >> 24 | 32) != 't') return 0;
    uint64_t digits = (x & 0xffffffffull) | (x & 0x00ffff0000000000ull) >> 8 | (z & 0xffff00ull) << 40;
    if (!all_digits(digits)) return 0;
    uint64_t t = (digits & 0x0f0f0f0f0f0f0f0full) * 2561 >> 8;
    uint32_t y = (t & 0xff) * 100 + (t >> 16 & 0xff), m = t >> 32 & 0xff, d = t >> 48 & 0xff;
    if (!civil(y, m, d, &o->days) || !clock8(p + 11, &o->seconds)) return 0;
    return tail3339(p + 19, p + n, o, 0);
}
#define N(a, b, c) (a | b << 8 | c << 16)
static inline uint32_t month_of(uint32_t w) {
    switch (w & 0xffffff) {
        case N('J', 'a', 'n'):
            return 1;
        case N('F', 'e', 'b'):
            return 2;
        case N('M', 'a', 'r'):
            return 3;
        case N('A', 'p', 'r'):
            return 4;
        case N('M', 'a', 'y'):
            return 5;
        case N('J', 'u', 'n'):
            return 6;
        case N('J', 'u', 'l'):
            return 7;
        case N('A', 'u', 'g'):
            return 8;
        case N('S', 'e', 'p'):
            return 9;
        case N('O', 'c', 't'):
            return 10;
        case N('N', 'o', 'v'):
            return 11;
        case N('D', 'e', 'c'):
            return 12;
    }
    return 0;
}
static inline int weekday_ok(uint32_t w) {
    switch (w & 0xffffff) {
        case N('M', 'o', 'n'):
        case N('T', 'u', 'e'):
        case N('W', 'e', 'd'):
        case N('T', 'h', 'u'):
        case N('F', 'r', 'i'):
        case N('S', 'a', 't'):
        case N('S', 'u', 'n'):
            return 1;
    }
    return 0;
}
static inline int year4(const u8 *p, uint32_t *y) {
    uint64_t x = (uint64_t)load4(p) | 0x3030303000000000ull;
    if (!all_digits(x | 0x3000000000ull >> 4)) {
    }
    uint32_t a = p[0] - '0', b = p[1] - '0', c = p[2] - '0', d = p[3] - '0';
    if (a > 9 || b > 9 || c > 9 || d > 9) return 0;
    *y = a * 1000 + b * 100 + c * 10 + d;
    return 1;
}
static inline int tail14(const u8 *p, moment *o) {
    if (!clock8(p, &o->seconds) || p[8] != ' ' || (p[9] != '+' && p[9] != '-')) return 0;
    uint32_t a = p[10] - '0', b = p[11] - '0', c = p[12] - '0', e = p[13] - '0';
    if (a > 9 || b > 9 || c > 5 || e > 9 || a * 10 + b > 23) return 0;
    int32_t off = (int32_t)((a * 10 + b) * 3600 + (c * 10 + e) * 60);
    o->offset = p[9] == '-' ? -off : off;
    o->nano = 0;
    return 1;
}
static __attribute__((noinline)) int rfc2822(const u8 *p, size_t n, moment *o) {
    if (n < 30 || n > 31 || p[3] != ',' || p[4] != ' ' || !weekday_ok(load4(p))) return 0;
    uint32_t d = p[5] - '0', y;
    if (d > 9) return 0;
    const u8 *q = p + 6;
    if (n == 31) {
        uint32_t e = *q++ - '0';
        if (e > 9) return 0;
        d = d * 10 + e;
    }
    if (q[0] != ' ' || q[4] != ' ' || q[9] != ' ' || !year4(q + 5, &y)) return 0;
    return civil(y, month_of(load4(q + 1)), d, &o->days) && tail14(q + 10, o);
}
static __attribute__((noinline)) int apache(const u8 *p, size_t n, moment *o) {
    if (n != 26 || p[2] != '/' || p[6] != '/' || p[11] != ':') return 0;
    uint32_t a = p[0] - '0', b = p[1] - '0', y;
    if (a > 9 || b > 9 || !year4(p + 7, &y)) return 0;
    return civil(y, month_of(load4(p + 3)), a * 10 + b, &o->days) && tail14(p + 12, o);
}

static inline void put2(u8 *p, uint32_t n) { memcpy(p, pairs + 2 * n, 2); }
static u8 *render(u8 *p, const moment *o, int32_t target, const u8 *suffix, size_t sn) {
    int64_t t = (int64_t)o->days * 86400 + o->seconds - o->offset + target;
    if (t < 0) return 0;
    uint32_t day = (uint32_t)(t / 86400), s = (uint32_t)(t % 86400);
    if (day >= 3652425) return 0;
    uint32_t n = day + 146097 - 60;
    uint32_t n1 = 4 * n + 3, century = n1 / 146097, r = n1 % 146097 / 4;
    uint32_t n2 = 4 * r + 3;
    uint64_t u2 = (uint64_t)2939745 * n2;
    uint32_t yoc = (uint32_t)(u2 >> 32), doy = (uint32_t)((uint32_t)u2 / 2939745 / 4);
    uint32_t n3 = 2141 * doy + 197913, month = n3 >> 16, d = (n3 & 0xffff) / 2141;
    uint32_t y = 100 * century + yoc - 400;
    if (doy >= 306) {
        y++;
        month -= 12;
    }
    put2(p, y / 100);
    put2(p + 2, y % 100);
    p[4] = '-';
    put2(p + 5, month);
    p[7] = '-';
    put2(p + 8, d + 1);
    p[10] = 'T';
    put2(p + 11, s / 3600);
    p[13] = ':';
    put2(p + 14, s / 60 % 60);
    p[16] = ':';
    put2(p + 17, s % 60);
    p[19] = '.';
    uint32_t f = o->nano, hi = f / 10000, lo = f % 10000;
    p[20] = '0' + hi / 10000;
    hi %= 10000;
    put2(p + 21, hi / 100);
    put2(p + 23, hi % 100);
    put2(p + 25, lo / 100);
    put2(p + 27, lo % 100);
    memcpy(p + 29, suffix, 8);
    return p + 29 + sn;
}

/* The quick ways. */
static u8 hm[1440][8];        /* "THH:MM:" and a byte that is overwritten */
static u8 dim_of[128];        /* the days of a month of a common year, 0 for no month */
static u8 md_text[2][384][8]; /* "-MM-DD" by leap year and place in the year */
static u8 year_kind[10000];   /* bit 0 leap, bits 1.. the weekday of 1 January, 0 Monday */
static u8 keep_mask[16][16], fill[16][16];
static struct {
    uint32_t word;
    u8 text[4];
    uint32_t number;
} months[64];
static uint32_t weekdays[64];
static uint32_t month_mul, weekday_mul;
static int32_t target_min;
static u8 suffix8[8];
static size_t suffix_len;
static unsigned line_bytes;

#define V(...) _mm_setr_epi8(__VA_ARGS__)
static inline __m128i loadv(const void *p) { return _mm_loadu_si128((const __m128i *)p); }
static inline void storev(void *p, __m128i v) { _mm_storeu_si128((__m128i *)p, v); }
static inline void store8(u8 *p, uint64_t x) { memcpy(p, &x, 8); }
static inline __m128i within(__m128i x, __m128i hi) { return _mm_cmpeq_epi8(_mm_min_epu8(x, hi), x); }

/* The day before or behind, where the text of a date stands at out: rare but not very. 0 where no year has it. */
static __attribute__((noinline)) int step_day(u8 *out, int by) {
    uint32_t y = (out[0] - '0') * 1000 + (out[1] - '0') * 100 + (out[2] - '0') * 10 + (out[3] - '0');
    uint32_t m = (out[5] - '0') * 10 + (out[6] - '0'), d = (out[8] - '0') * 10 + (out[9] - '0');
    if (by > 0) {
        d++;
        if (d > month_days[leap(y)][m]) {
            d = 1;
            if (++m > 12) {
                m = 1;
                y++;
            }
        }
    } else {
        d--;
        if (d == 0) {
            if (--m == 0) {
                m = 12;
                if (y == 0) return 0;
                y--;
            }
            d = month_days[leap(y)][m];
        }
    }
    if (y > 9999) return 0;
    put2(out, y / 100);
    put2(out + 2, y % 100);
    put2(out + 5, m);
    put2(out + 8, d);
    return 1;
}
/* Moves the date at out to the day of the minute, and gives the minute within the day; below 0: no such year. */
static inline int carried(u8 *out, int t, uint32_t day, uint32_t last) {
    if (__builtin_expect((uint32_t)t < 1440, 1)) return t;
    int by = t < 0 ? -1 : 1;
    t -= by * 1440;
    if (__builtin_expect((uint32_t)t < 1440 && day + by - 1 < last, 1)) {
        put2(out + 8, day + by);
        return t;
    }
    if (!step_day(out, by)) return -1;
    while ((uint32_t)t >= 1440) {
        t -= by * 1440;
        if (!step_day(out, by)) return -1;
    }
    return t;
}

/* A line of RFC 3339 with its line feed: where the next one begins, or 0 where it has another shape. The answer is
   written. `left` is the most bytes that may be read with the line feed. */
static inline const u8 *quick3339(const u8 *p, u8 *out, size_t *made) {
    const __m128i loA = V('0', '0', '0', '0', '-', '0', '0', '-', '0', '0', 'T', '0', '0', ':', '0', '0');
    const __m128i hiA = V(9, 9, 9, 9, 0, 1, 9, 0, 3, 9, 0, 2, 9, 0, 5, 9);
    const __m128i loB = V(':', '0', '0', '0', '0', '0', '0', '0', '0', '0', '0', '0', '0', '0', '0', '0');
    const __m128i hiB = V(0, 5, 9, -1, -1, -1, -1, -1, -1, -1, -1, -1, -1, -1, -1, -1);
    __m128i A = loadv(p), B = loadv(p + 16);
    __m128i xA = _mm_sub_epi8(A, loA), xB = _mm_sub_epi8(B, loB);
    __m128i ok = _mm_and_si128(within(xA, hiA), within(xB, hiB));
    if (__builtin_expect(_mm_movemask_epi8(ok) != 0xffff, 0)) return 0;
    unsigned digits = _mm_movemask_epi8(within(xB, _mm_set1_epi8(9))) >> 4;
    unsigned n = 0;
    const u8 *q = p + 19;
    if (p[19] == '.') {
        n = __builtin_ctz(~digits);
        if (__builtin_expect(n - 1 > 8, 0)) return 0;
        q = p + 20 + n;
    }
    /* month, day, hour, minute */
    __m128i v = _mm_maddubs_epi16(_mm_shuffle_epi8(xA, V(5, 6, 8, 9, 11, 12, 14, 15, -1, -1, -1, -1, -1, -1, -1, -1)),
                                  _mm_set1_epi16(0x010a));
    uint64_t w = _mm_cvtsi128_si64(v);
    uint32_t month = w & 0xff, day = w >> 16 & 0xff, last = dim_of[month];
    int t = (int)((w >> 32 & 0xff) * 60 + (w >> 48));
    if (__builtin_expect(day - 1 >= last || t >= 1440, 0)) return 0;
    uint64_t z = load8(q);
    int off = 0;
    if ((z & 0xffff) == ('Z' | '\n' << 8))
        q += 2;
    else {
        uint32_t s = (z & 0xff) - '+';
        uint64_t d = (z ^ 0x000a30303a303000ull) << 8 >> 16;
        if (__builtin_expect(s & ~2u, 0)) return 0;
        if (__builtin_expect(((d & 0xfff0f0fff0f0ull) | ((d + 0x000606000606ull) & 0x00f0f000f0f0ull)) != 0, 0))
            return 0;
        uint64_t pr = d * 10 + (d >> 8);
        uint32_t oh = pr & 0xff, om = pr >> 24 & 0xff;
        if (__builtin_expect(oh > 23 || om > 59, 0)) return 0;
        off = (int)(oh * 60 + om);
        int neg = -(int)(s >> 1);
        off = (off ^ neg) - neg;
        q += 7;
    }
    storev(out, A);
    t = carried(out, t - off + target_min, day, last);
    if (__builtin_expect(t < 0, 0)) return 0;
    storev(out + 16, _mm_or_si128(_mm_and_si128(B, loadv(keep_mask[n])), loadv(fill[n])));
    store8(out + 29, load8(suffix8));
    uint64_t c = load8(hm[t]); /* "THH:MM:?" at 10 */
    memcpy(out + 10, &c, 4);
    memcpy(out + 13, (u8 *)&c + 3, 4);
    *made = line_bytes;
    return q;
}

/* " Mon YYYY HH:MM:SS +HHMM\n" behind the day, or the same with other separators: 25 bytes at q. */
static inline const u8 *quick_named(const u8 *q, u8 *out, size_t *made, uint32_t day, __m128i lo, char sep) {
    const __m128i hi = V(0, 2, 9, 0, 5, 9, 0, 5, 9, 0, 2, 2, 9, 5, 9, 0);
    __m128i D = loadv(q + 9);
    __m128i x = _mm_sub_epi8(D, lo);
    __m128i y = _mm_cvtsi32_si128(load4(q + 5));
    __m128i ok =
        _mm_and_si128(within(x, hi), within(_mm_sub_epi8(y, V('0', '0', '0', '0', 0, 0, 0, 0, 0, 0, 0, 0, 0, 0, 0, 0)),
                                            V(9, 9, 9, 9, 0, 0, 0, 0, 0, 0, 0, 0, 0, 0, 0, 0)));
    if (__builtin_expect(_mm_movemask_epi8(ok) != 0xffff, 0)) return 0;
    uint32_t name = load4(q + 1); /* the name and the separator behind it */
    unsigned at = name * month_mul >> 26;
    if (__builtin_expect(
            months[at].word != (name & 0xffffff) || (name >> 24) != (u8)sep || q[0] != (u8)sep || q[19] == ',', 0))
        return 0;
    uint32_t last = dim_of[months[at].number];
    __m128i v = _mm_maddubs_epi16(_mm_shuffle_epi8(x, V(1, 2, 4, 5, 11, 12, 13, 14, -1, -1, -1, -1, -1, -1, -1, -1)),
                                  _mm_set1_epi16(0x010a));
    uint64_t w = _mm_cvtsi128_si64(_mm_madd_epi16(v, _mm_setr_epi16(60, 1, 60, 1, 0, 0, 0, 0)));
    int t = (int)(uint32_t)w, off = (int)(w >> 32);
    if (__builtin_expect(day - 1 >= last || t >= 1440 || off >= 1440, 0)) return 0;
    int neg = -(int)(q[19] == '-');
    off = (off ^ neg) - neg;
    memcpy(out, q + 5, 4);
    memcpy(out + 4, months[at].text, 4);
    put2(out + 8, day);
    t = carried(out, t - off + target_min, day, last);
    if (__builtin_expect(t < 0, 0)) return 0;
    storev(out + 16, loadv(fill[0]));
    store8(out + 29, load8(suffix8));
    store8(out + 10, load8(hm[t]));
    memcpy(out + 17, q + 16, 2);
    *made = line_bytes;
    return q + 25;
}
static inline const u8 *quick2822(const u8 *p, u8 *out, size_t *made) {
    const __m128i lo = V(' ', '0', '0', ':', '0', '0', ':', '0', '0', ' ', '+', '0', '0', '0', '0', '\n');
    uint32_t name = load4(p);
    if (__builtin_expect(weekdays[name * weekday_mul >> 26] != name || p[4] != ' ', 0)) return 0;
    uint32_t a = p[5] - '0', b = p[6] - '0';
    int two = p[6] != ' ';
    uint32_t day = two ? a * 10 + b : a;
    if (__builtin_expect(a > 9 || (two && b > 9), 0)) return 0;
    return quick_named(p + 6 + two, out, made, day, lo, ' ');
}
static inline const u8 *quick_apache(const u8 *p, u8 *out, size_t *made) {
    const __m128i lo = V(':', '0', '0', ':', '0', '0', ':', '0', '0', ' ', '+', '0', '0', '0', '0', '\n');
    uint32_t a = p[0] - '0', b = p[1] - '0';
    if (__builtin_expect(a > 9 || b > 9, 0)) return 0;
    return quick_named(p + 2, out, made, a * 10 + b, lo, '/');
}

/* ISO 8601 with calendar, week and ordinal dates, extended and basic, a second, 0 to 9 digits of a fraction and an
   offset: what gen.py writes. By places, one byte or word after the other. */
static inline unsigned dig(u8 c) { return (u8)(c - '0'); }
static __attribute__((noinline)) const u8 *quick_iso(const u8 *p, u8 *out, size_t *made) {
    const __m128i hi9 = _mm_set1_epi8(9);
    __m128i A = loadv(p);
    unsigned m = _mm_movemask_epi8(within(_mm_sub_epi8(A, _mm_set1_epi8('0')), hi9));
    if ((m & 15) != 15) return 0;
    uint32_t y = ((p[0] - '0') * 10 + (p[1] - '0')) * 100 + (p[2] - '0') * 10 + (p[3] - '0');
    uint32_t kind = year_kind[y], lp = kind & 1, days = 365 + lp;
    int ext = p[4] == '-', doy;
    const u8 *q;
    if (p[4 + ext] == 'W') {
        const u8 *d = p + 5 + ext;
        unsigned a = dig(d[0]), b = dig(d[1]), c = dig(d[2 + ext]) - 1;
        if (a > 5 || b > 9 || c > 6 || (ext && d[2] != '-')) return 0;
        unsigned wk = a * 10 + b - 1, first = kind >> 1;
        if (wk > 52 || (wk == 52 && !(first == 3 || (first == 2 && lp)))) return 0;
        doy = (int)(wk * 7 + c) - (first <= 3 ? (int)first : (int)first - 7);
        q = d + 3 + ext;
    } else if (ext || ((m >> 4 & 15) != 7)) {
        if (ext && (m >> 5 & 7) == 7) goto ordinal;
        const u8 *d = p + 4 + ext, *e = d + 2 + ext;
        unsigned a = dig(d[0]), b = dig(d[1]), c = dig(e[0]), f = dig(e[1]);
        if (a > 1 || b > 9 || c > 3 || f > 9 || (ext && d[2] != '-')) return 0;
        unsigned mo = a * 10 + b, dd = c * 10 + f;
        if (mo - 1 >= 12 || dd - 1 >= month_days[lp][mo]) return 0;
        doy = month_start[lp][mo] + dd - 1;
        q = e + 2;
    } else {
    ordinal:;
        const u8 *d = p + 4 + ext;
        unsigned a = dig(d[0]), b = dig(d[1]), c = dig(d[2]);
        unsigned o = a * 100 + b * 10 + c;
        if (o - 1 >= days) return 0;
        doy = o - 1;
        q = d + 3;
    }
    if (*q != 'T') return 0;
    unsigned ss;
    int t;
    {
        uint64_t c = load8(q + 1);
        if (!ext) c = (c & 0xffff) | (c & 0xffff0000) << 8 | (c & 0xffff00000000) << 16 | 0x00003a00003a0000ull;
        uint64_t x = c ^ 0x30303a30303a3030ull;
        if (((x & 0xf0f0fff0f0fff0f0ull) | ((x + 0x0606000606000606ull) & 0xf0f000f0f000f0f0ull))) return 0;
        uint64_t pr = x * 10 + (x >> 8);
        unsigned h = pr & 0xff, mi = pr >> 24 & 0xff;
        ss = pr >> 48 & 0xff;
        if (h > 23 || mi > 59 || ss > 59) return 0;
        t = (int)(h * 60 + mi);
        q += ext ? 9 : 7;
    }
    __m128i F = loadv(q - 3); /* 3 bytes, then '.' and the digits */
    unsigned n = 0;
    if (*q == '.') {
        unsigned g = _mm_movemask_epi8(within(_mm_sub_epi8(F, _mm_set1_epi8('0')), hi9)) >> 4;
        n = __builtin_ctz(~g);
        if (n - 1 > 8) return 0;
        q += 1 + n;
    }
    int off = 0;
    uint64_t z = load8(q);
    if ((z & 0xffff) == ('Z' | '\n' << 8))
        q += 2;
    else {
        uint32_t s = (z & 0xff) - '+';
        if (s & ~2u) return 0;
        if (!ext) {
            z = (z & 0xffffff) | (uint64_t)':' << 24 | (z & 0xffffff000000) << 8;
            q += 6;
        } else
            q += 7;
        uint64_t d = (z ^ 0x000a30303a303000ull) << 8 >> 16;
        if ((d & 0xfff0f0fff0f0ull) | ((d + 0x000606000606ull) & 0x00f0f000f0f0ull)) return 0;
        uint64_t pr = d * 10 + (d >> 8);
        uint32_t oh = pr & 0xff, om = pr >> 24 & 0xff;
        if (oh > 23 || om > 59) return 0;
        off = (int)(oh * 60 + om);
        int neg = -(int)(s >> 1);
        off = (off ^ neg) - neg;
    }
    t += target_min - off;
    while (__builtin_expect((uint32_t)t >= 1440, 0)) {
        int by = t < 0 ? -1 : 1;
        t -= by * 1440;
        doy += by;
    }
    memcpy(out, p, 4);
    if (__builtin_expect((uint32_t)doy >= days, 0)) {
        if (doy < 0) {
            if (y == 0) return 0;
            y--;
            lp = year_kind[y] & 1;
            doy += 365 + lp;
        } else {
            doy -= days;
            y++;
            if (y > 9999) return 0;
            lp = year_kind[y] & 1;
        }
        put2(out, y / 100);
        put2(out + 2, y % 100);
    }
    store8(out + 4, load8(md_text[lp][doy]));
    storev(out + 16, _mm_or_si128(_mm_and_si128(F, loadv(keep_mask[n])), loadv(fill[n])));
    store8(out + 29, load8(suffix8));
    store8(out + 10, load8(hm[t]));
    put2(out + 17, ss);
    *made = line_bytes;
    return q;
}

static void flush(u8 *b, size_t n) {
    while (n) {
        ssize_t w = write(1, b, n);
        if (w <= 0) exit(1);
        b += w;
        n -= w;
    }
}
static void tables(void) {
    static const uint8_t dm[13] = {0, 31, 28, 31, 30, 31, 30, 31, 31, 30, 31, 30, 31};
    static const char names[] = "JanFebMarAprMayJunJulAugSepOctNovDec", days[] = "MonTueWedThuFriSatSun";
    for (int i = 0; i < 100; i++) {
        pairs[2 * i] = '0' + i / 10;
        pairs[2 * i + 1] = '0' + i % 10;
    }
    for (int l = 0; l < 2; l++)
        for (int m = 1, s = 0; m < 13; m++) {
            month_start[l][m] = s;
            month_days[l][m] = dm[m] + (l && m == 2);
            for (int d = 0; d < month_days[l][m]; d++) {
                u8 *x = md_text[l][s + d];
                x[0] = '-';
                put2(x + 1, m);
                x[3] = '-';
                put2(x + 4, d + 1);
            }
            s += month_days[l][m];
        }
    memcpy(dim_of, dm, 13);
    for (int i = 0; i < 1440; i++) {
        u8 *x = hm[i];
        x[0] = 'T';
        put2(x + 1, i / 60);
        x[3] = ':';
        put2(x + 4, i % 60);
        x[6] = ':';
        x[7] = '0';
    }
    for (int y = 0, w = 5; y < 10000; y++) {
        year_kind[y] = leap(y) | w << 1;
        w = (w + 365 + leap(y)) % 7;
    } /* 0000-01-01 is a Saturday */
    for (int n = 0; n < 10; n++)
        for (int i = 0; i < 16; i++) {
            int kept = i < (n ? 4 + n : 3);
            keep_mask[n][i] = kept ? 255 : 0;
            fill[n][i] = kept ? 0 : i == 3 ? '.' : '0';
        }
    for (month_mul = 0x9E3779B1;; month_mul += 2) { /* a perfect hash: with either separator behind the name */
        memset(months, 0, sizeof months);
        int ok = 1;
        for (int m = 0; m < 12 && ok; m++)
            for (int s = 0; s < 2 && ok; s++) {
                uint32_t w = N(names[3 * m], names[3 * m + 1], names[3 * m + 2]) | (uint32_t)(s ? '/' : ' ') << 24;
                unsigned at = w * month_mul >> 26;
                if (months[at].number && months[at].number != (uint32_t)m + 1) ok = 0;
                months[at].word = w & 0xffffff;
                months[at].number = m + 1;
                months[at].text[0] = '-';
                put2(months[at].text + 1, m + 1);
                months[at].text[3] = '-';
            }
        if (ok) break;
    }
    for (weekday_mul = 0x9E3779B1;; weekday_mul += 2) {
        memset(weekdays, 0, sizeof weekdays);
        int ok = 1;
        for (int d = 0; d < 7 && ok; d++) {
            uint32_t w = N(days[3 * d], days[3 * d + 1], days[3 * d + 2]) | (uint32_t)',' << 24;
            unsigned at = w * weekday_mul >> 26;
            if (weekdays[at]) ok = 0;
            weekdays[at] = w;
        }
        if (ok) break;
    }
}

int main(int argc, char **argv) {
    tables();
    const char *a = argv[1];
    int32_t target = 0;
    memcpy(suffix8, "Z\n", 2);
    suffix_len = 2;
    if (*a != 'Z') {
        target = (a[1] - '0') * 36000 + (a[2] - '0') * 3600 + (a[4] - '0') * 600 + (a[5] - '0') * 60;
        if (*a == '-') target = -target;
        if (target) {
            memcpy(suffix8, a, 6);
            suffix8[6] = '\n';
            suffix_len = 7;
        }
    }
    target_min = target / 60;
    line_bytes = 29 + suffix_len;
    size_t limit = strtoul(argv[3], 0, 10);
    int (*sources[8])(const u8 *, size_t, moment *);
    int count = 0, has3339 = 0, has2822 = 0, has_apache = 0, has_iso = 0;
    for (int i = 4; i < argc && count < 8; i++) {
        if (!strcmp(argv[i], "rfc3339")) {
            sources[count++] = rfc3339;
            has3339 = 1;
        } else if (!strcmp(argv[i], "rfc2822")) {
            sources[count++] = rfc2822;
            has2822 = 1;
        } else if (!strcmp(argv[i], "iso8601"))
            has_iso = 1;
        else {
            sources[count++] = apache;
            has_apache = 1;
        }
    }
    /* the quick ways answer only lines that one source reads, and of 37 bytes at most, so any order is right */
    if (limit < 40) has3339 = has2822 = has_apache = has_iso = 0;

    u8 *in = malloc(2 * BLOCK + 128), *out = malloc(BLOCK + 4096);
    size_t have = 0;
    u8 *o = out, *full = out + BLOCK;
    for (;;) {
        ssize_t got = read(0, in + have, BLOCK);
        if (got < 0) return 1;
        if (got == 0 && have == 0) break;
        have += got;
        int last = got == 0;
        if (last) in[have++] = '\n';
        const u8 *p = in, *end = in + have, *safe = end - 48;
        memset(in + have, 0, 64);
        while (p < end) {
            if (__builtin_expect(p < safe, 1)) {
                const u8 *q = 0;
                size_t made;
                if (has3339 && p[4] == '-')
                    q = quick3339(p, o, &made);
                else if (has2822 && p[3] == ',')
                    q = quick2822(p, o, &made);
                else if (has_apache && p[2] == '/')
                    q = quick_apache(p, o, &made);
                else if (has_iso)
                    goto iso;
                if (has_iso && !q) {
                iso:
                    q = quick_iso(p, o, &made);
                }
                if (__builtin_expect(q != 0, 1)) {
                    p = q;
                    o += made;
                    if (__builtin_expect(o >= full, 0)) {
                        flush(out, o - out);
                        o = out;
                    }
                    continue;
                }
            }
            const u8 *e = memchr(p, '\n', end - p);
            if (!e) break;
            moment m;
            size_t n = e - p, made;
            u8 *r = 0;
            if (n <= limit) {
                int ok = 0;
                for (int i = 0; i < count && !ok; i++) ok = sources[i](p, n, &m);
                if (ok)
                    r = render(o, &m, target, suffix8, suffix_len);
                else if (has_iso) {
                    const u8 *q = quick_iso(p, o, &made);
                    if (q == e + 1) r = o + made;
                }
            }
            if (!r) {
                memcpy(o, "! invalid\n", 10);
                r = o + 10;
            }
            o = r;
            if (o >= full) {
                flush(out, o - out);
                o = out;
            }
            p = e + 1;
        }
        have = end - p;
        if (have > BLOCK - 1) return 2;
        memmove(in, p, have);
        if (last) break;
    }
    flush(out, o - out);
    return 0;
}
