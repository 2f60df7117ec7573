/* Calls every function of qashmelvit.h, tells each call that answers wrongly, and ends with status 1 where there is one. */
#include "qashmelvit.h"

#include "lent.h"

#include <inttypes.h>
#include <stdarg.h>
#include <stdio.h>
#include <string.h>

#define COUNT(table) (sizeof(table) / sizeof(table)[0])

enum {
    GREGORIAN_FIRST = 2299161,
    JULIAN_LAST = 5373557,
    GREGORIAN_LAST = 5373484,
    LAST_YEAR = 9999,
    LONGEST = 120,       /* the longest line that is read */
    LONGEST_TRIED = 200,
    LONGEST_TRANSCRIPT = 65536,
    PLACE = 20,          /* the bytes of a mark's five numbers */
    LONGEST_PAGE = 65536,
    NUMBER = 4,          /* the bytes of a line's number */
    FAILURES_SHOWN = 20
};

/* Counting and telling. */

static unsigned long checks, failures;

/* Counts a check; where the answer is not the wanted one, tells the call, which the format and what follows it spell. */
static void check(int64_t wanted, int64_t got, const char *call, ...)
{
    va_list arguments;
    checks++;
    if (wanted == got || failures++ >= FAILURES_SHOWN)
        return;
    va_start(arguments, call);
    fputs("calls: ", stderr);
    vfprintf(stderr, call, arguments);
    fprintf(stderr, ": wanted %" PRId64 ", got %" PRId64 "\n", wanted, got);
    va_end(arguments);
}

/* The line with its bytes outside printable ASCII as numbers. */
static const char *shown(const char *line, size_t length)
{
    static char text[4 * LONGEST_TRIED + 8];
    char *end = text;
    size_t i;
    for (i = 0; i < length && i < LONGEST_TRIED; i++)
        if (line[i] >= ' ' && line[i] <= '~')
            *end++ = line[i];
        else
            end += sprintf(end, "\\x%02x", (unsigned)(unsigned char)line[i]);
    strcpy(end, length > LONGEST_TRIED ? ".." : "");
    return text;
}

static void check_line(int64_t wanted, int64_t got, const char *what, const char *line, size_t length)
{
    if (wanted == got)
        checks++;
    else
        check(wanted, got, "%s(\"%s\", %zu)", what, shown(line, length), length);
}

/* Lending lines. */

enum { GUARD_BYTE = 0xa5 };

static struct block block;
static const char *lent_line = "";
static size_t lent_length;

struct reading {
    uint32_t answer;
    size_t start;
    size_t length;
};

/* What the three calls answer for the line at the block's end or start; the line's bytes and the guard's beside it must stay. */
static struct reading reading_at(int at_end, const char *line, size_t length)
{
    struct lent lent = lend(block, length, at_end, GUARD_BYTE);
    struct reading r;
    memcpy(lent.bytes, line, length);
    r.answer = qv_line(lent.bytes, length);
    r.start = qv_part_start(lent.bytes, length);
    r.length = qv_part_length(lent.bytes, length);
    check_line(0, memcmp(lent.bytes, line, length) != 0, "changes its line: ", line, length);
    check_line(1, all_are(lent.beside, GUARD, GUARD_BYTE), "keeps the bytes beside its line: ", line, length);
    return r;
}

/* The line is read once with the closed page behind its last byte and once with it before its first. */
static struct reading reading(const char *line, size_t length)
{
    struct reading r, again;
    lent_line = line;
    lent_length = length;
    r = reading_at(1, line, length);
    again = reading_at(0, line, length);
    check_line(r.answer, again.answer, "qv_line, again", line, length);
    check_line((int64_t)r.start, (int64_t)again.start, "qv_part_start, again", line, length);
    check_line((int64_t)r.length, (int64_t)again.length, "qv_part_length, again", line, length);
    check_line(1, r.start <= length && r.length <= length - r.start, "part within the line", line, length);
    return r;
}

static unsigned char accepted_of_length[LONGEST_TRIED + 1];

static void expect_line(const char *line, size_t length, uint32_t answer, size_t start, size_t part)
{
    struct reading r = reading(line, length);
    check_line(answer, r.answer, "qv_line", line, length);
    check_line((int64_t)start, (int64_t)r.start, "qv_part_start", line, length);
    check_line((int64_t)part, (int64_t)r.length, "qv_part_length", line, length);
    if (r.answer >= QV_FIRST_DAY && length <= LONGEST_TRIED)
        accepted_of_length[length] = 1;
}

static void expect_refused(const char *line, size_t length, uint32_t refusal)
{
    expect_line(line, length, refusal, 0, 0);
}

static char style_letter(uint64_t style)
{
    return style == QV_JULIAN ? 'J' : style == QV_GREGORIAN ? 'G' : 'O';
}

/* Reads the line of these parts, and expects the answer, with the feast word or date as its part, or the refusal of a long line. */
static void expect_phrase(const char *wrappers, const char *anchor, uint64_t year, uint64_t style, uint32_t answer)
{
    char line[2 * LONGEST_TRIED];
    int written = snprintf(line, sizeof line, "%s%s %" PRIu64 " %c", wrappers, anchor, year, style_letter(style));
    size_t length = (size_t)written;
    if (length > LONGEST)
        expect_refused(line, length, QV_LENGTH);
    else if (answer < QV_FIRST_DAY)
        expect_refused(line, length, answer);
    else
        expect_line(line, length, answer, strlen(wrappers), strlen(anchor));
}

/* What the rules say, by counting and by formulas that are known from elsewhere. */

static int is_style(uint64_t style)
{
    return style == QV_JULIAN || style == QV_GREGORIAN || style == QV_OLD_EASTER;
}

static uint64_t first_year(uint64_t style)
{
    return style == QV_JULIAN ? 1 : 1582;
}

static uint32_t first_day(uint64_t style)
{
    return style == QV_JULIAN ? QV_FIRST_DAY : GREGORIAN_FIRST;
}

static uint32_t last_day(uint64_t style)
{
    return style == QV_JULIAN ? JULIAN_LAST : GREGORIAN_LAST;
}

static int in_span(uint64_t style, uint64_t day)
{
    return day >= first_day(style) && day <= last_day(style);
}

static int is_served(uint64_t style, uint64_t year)
{
    return year >= first_year(style) && year <= LAST_YEAR;
}

static int is_leap(uint64_t style, uint64_t year)
{
    return year % 4 == 0 && (style == QV_JULIAN || year % 100 != 0 || year % 400 == 0);
}

static uint64_t month_length(uint64_t style, uint64_t year, uint64_t month)
{
    static const uint64_t lengths[] = {31, 28, 31, 30, 31, 30, 31, 31, 30, 31, 30, 31};
    return month == 2 && is_leap(style, year) ? 29 : lengths[month - 1];
}

/* The refusal of a date, or 0. */
static uint32_t date_refusal(uint64_t style, uint64_t year, uint64_t month, uint64_t day)
{
    if (!is_style(style))
        return QV_NAME;
    if (!is_served(style, year))
        return QV_YEAR;
    if (month < 1 || month > 12 || day < 1 || day > month_length(style, year, month))
        return QV_DATE;
    if (style != QV_JULIAN && year == 1582 && (month < 10 || (month == 10 && day < 15)))
        return QV_SPAN;
    return 0;
}

/* Easter as a day of March of the style's dates, run on past 31: for J and O by the rule of Gauss, in O carried over to new dates, and for G by the
   anonymous rule that Nature printed in 1876. */
static uint64_t easter_in_march(uint64_t style, uint64_t year)
{
    uint64_t a = year % 19, b = year / 100, c = year % 100, d, h, l, m;
    if (style != QV_GREGORIAN) {
        d = (19 * a + 15) % 30;
        return 22 + d + (2 * (year % 4) + 4 * (year % 7) + 6 * d + 6) % 7 + (style == QV_JULIAN ? 0 : b - b / 4 - 2);
    }
    h = (19 * a + b - b / 4 - (b - (b + 8) / 25 + 1) / 3 + 15) % 30;
    l = (32 + 2 * (b % 4) + 2 * (c / 4) - h - c % 4) % 7;
    m = (a + 11 * h + 22 * l) / 451;
    return 22 + h + l - 7 * m;
}

struct feast {
    const char *word;
    int from_easter;     /* counts where the month is 0 */
    uint64_t day, month; /* for matthias those of common years, for advent the first day on which it can fall */
};

enum { FEASTS = 48, EASTER = 13, MATTHIAS = 27, ADVENT = 48 };

static const struct feast feasts[FEASTS] = {
    {"septuagesima", -63, 0, 0}, {"sexagesima", -56, 0, 0}, {"estomihi", -49, 0, 0}, {"ashes", -46, 0, 0},
    {"invocavit", -42, 0, 0}, {"reminiscere", -35, 0, 0}, {"oculi", -28, 0, 0}, {"laetare", -21, 0, 0},
    {"judica", -14, 0, 0}, {"palms", -7, 0, 0}, {"cena", -3, 0, 0}, {"parasceve", -2, 0, 0},
    {"easter", 0, 0, 0}, {"quasimodo", 7, 0, 0}, {"misericordia", 14, 0, 0}, {"jubilate", 21, 0, 0},
    {"cantate", 28, 0, 0}, {"rogate", 35, 0, 0}, {"ascension", 39, 0, 0}, {"exaudi", 42, 0, 0},
    {"pentecost", 49, 0, 0}, {"trinity", 56, 0, 0}, {"corpus", 60, 0, 0}, {"circumcision", 0, 1, 1},
    {"epiphany", 0, 6, 1}, {"candlemas", 0, 2, 2}, {"matthias", 0, 24, 2}, {"annunciation", 0, 25, 3},
    {"mark", 0, 25, 4}, {"philip", 0, 1, 5}, {"baptist", 0, 24, 6}, {"peter", 0, 29, 6},
    {"magdalene", 0, 22, 7}, {"james", 0, 25, 7}, {"laurence", 0, 10, 8}, {"assumption", 0, 15, 8},
    {"bartholomew", 0, 24, 8}, {"matthew", 0, 21, 9}, {"michael", 0, 29, 9}, {"luke", 0, 18, 10},
    {"simon", 0, 28, 10}, {"saints", 0, 1, 11}, {"martin", 0, 11, 11}, {"andrew", 0, 30, 11},
    {"nicholas", 0, 6, 12}, {"thomas", 0, 21, 12}, {"christmas", 0, 25, 12}, {"advent", 0, 27, 11},
};

/* The answer for a feast, from the days of dates, which are checked by themselves. */
static uint32_t wanted_feast(uint64_t style, uint64_t number, uint64_t year)
{
    const struct feast *feast;
    uint32_t day;
    if (!is_style(style) || number < 1 || number > FEASTS)
        return QV_NAME;
    feast = &feasts[number - 1];
    if (!is_served(style, year) || (feast->month == 0 && style != QV_JULIAN && year == 1582))
        return QV_YEAR;
    if (feast->month == 0)
        return qv_day(style, year, 3, 1) - 1 + (uint32_t)easter_in_march(style, year) + (uint32_t)feast->from_easter;
    day = qv_day(style, year, feast->month, feast->day + (number == MATTHIAS && month_length(style, year, 2) == 29));
    if (number == ADVENT)
        while (day % 7 + 1 != 7)
            day++;
    return day;
}

/* Numbers at which a test may turn, and numbers that a narrower type would cut to a good one. */
static const uint64_t numbers[] = {
    0, 1, 2, 3, 4, 10, 12, 13, 14, 15, 23, 24, 28, 29, 30, 31, 32, 47, 48, 49, 256 + 1, 256 + 2, 256 + 3, 1581, 1582, 1583, 1900, 2000,
    9999, 10000, 65536 + 1, QV_FIRST_DAY - 1, QV_FIRST_DAY, GREGORIAN_FIRST - 1, GREGORIAN_FIRST, GREGORIAN_LAST,
    GREGORIAN_LAST + 1, JULIAN_LAST, JULIAN_LAST + 1, UINT64_C(1) << 31, UINT32_MAX, UINT64_C(1) << 32, (UINT64_C(1) << 32) + 1,
    (UINT64_C(1) << 32) + 2, (UINT64_C(1) << 32) + 3, (UINT64_C(1) << 32) + 1582, (UINT64_C(1) << 32) + GREGORIAN_FIRST, UINT64_C(1) << 63,
    (UINT64_C(1) << 63) + 1, UINT64_MAX - 1, UINT64_MAX,
};

/* Pseudo-random numbers from 0 to below the bound, the same in every run. */
static uint64_t random_below(uint64_t bound)
{
    static uint64_t state = 1582;
    state = state * UINT64_C(6364136223846793005) + UINT64_C(1442695040888963407);
    return (state >> 33) % bound;
}

/* Days and weekdays. */

#define DATE_CALL "(%" PRIu64 ", %" PRIu64 ", %" PRIu64 ", %" PRIu64 ")"

static void expect_date_line(uint64_t style, uint64_t year, uint64_t month, uint64_t day, uint32_t answer)
{
    char date[48];
    sprintf(date, "%" PRIu64 ".%" PRIu64, day, month);
    expect_phrase("", date, year, style, answer);
}

/* The days of a month from this one on have the numbers from this one on; the next number is answered. */
static uint32_t check_month(uint64_t style, uint64_t year, uint64_t month, uint64_t day, uint32_t number)
{
    for (; day <= month_length(style, year, month); day++, number++) {
        check(number, qv_day(style, year, month, day), "qv_day" DATE_CALL, style, year, month, day);
        check(0, qv_weekday_refusal(style, number), "qv_weekday_refusal(%" PRIu64 ", %" PRIu32 ")", style, number);
        check(number % 7 + 1, qv_weekday(style, number), "qv_weekday(%" PRIu64 ", %" PRIu32 ")", style, number);
        if (number % 97 == 0)
            expect_date_line(style, year, month, day, number);
    }
    return number;
}

/* The days of the span are counted on one by one, through every month. */
static void check_every_day(uint64_t style)
{
    uint32_t number = first_day(style);
    uint64_t month = style == QV_JULIAN ? 1 : 10, day = style == QV_JULIAN ? 1 : 15, year;
    for (year = first_year(style); year <= LAST_YEAR; year++, month = 1)
        for (; month <= 12; month++, day = 1)
            number = check_month(style, year, month, day, number);
    check(last_day(style), number - 1, "the last day that was counted in style %" PRIu64, style);
}

static void check_weekdays_cycle(uint64_t style)
{
    uint32_t day, before = qv_weekday(style, first_day(style)), weekday;
    check(style == QV_JULIAN ? 6 : 5, before, "qv_weekday(%" PRIu64 ", %" PRIu32 ")", style, first_day(style));
    for (day = first_day(style) + 1; day < first_day(style) + 10000; day++, before = weekday) {
        weekday = qv_weekday(style, day);
        check(before == 7 ? 1 : before + 1, weekday, "qv_weekday(%" PRIu64 ", %" PRIu32 ")", style, day);
    }
}

static void check_date_numbers(uint64_t style, uint64_t year, uint64_t month, uint64_t day)
{
    uint32_t refusal = date_refusal(style, year, month, day), answer = qv_day(style, year, month, day);
    if (refusal != 0)
        check(refusal, answer, "qv_day" DATE_CALL, style, year, month, day);
    else
        check(1, in_span(style, answer), "a day of the span: qv_day" DATE_CALL, style, year, month, day);
}

/* The first and last days of months, and days and months that are none, in every year. */
static void check_month_edges(uint64_t style)
{
    static const uint64_t days[] = {0, 1, 28, 29, 30, 31, 32};
    uint64_t year, month;
    size_t i;
    for (year = 0; year <= LAST_YEAR + 1; year++)
        for (month = 0; month <= 13; month++)
            for (i = 0; i < COUNT(days); i++)
                check_date_numbers(style, year, month, days[i]);
}

/* Every date that the grammar has, by the call and by a line. */
static void check_dates_of_year(uint64_t style, uint64_t year)
{
    uint64_t month, day;
    for (month = 1; month <= 12; month++)
        for (day = 1; day <= 31; day++) {
            check_date_numbers(style, year, month, day);
            expect_date_line(style, year, month, day, qv_day(style, year, month, day));
        }
}

static void check_weekday_numbers(uint64_t style, uint64_t day)
{
    uint32_t refusal = !is_style(style) ? QV_NAME : !in_span(style, day) ? QV_SPAN : 0;
    uint32_t weekday = refusal == 0 ? (uint32_t)(day % 7 + 1) : 0;
    check(refusal, qv_weekday_refusal(style, day), "qv_weekday_refusal(%" PRIu64 ", %" PRIu64 ")", style, day);
    check(weekday, qv_weekday(style, day), "qv_weekday(%" PRIu64 ", %" PRIu64 ")", style, day);
}

static void check_all_numbers(void)
{
    size_t i, j, k, l;
    for (i = 0; i < COUNT(numbers); i++)
        for (j = 0; j < COUNT(numbers); j++) {
            check_weekday_numbers(numbers[i], numbers[j]);
            for (k = 0; k < COUNT(numbers); k++) {
                check(wanted_feast(numbers[i], numbers[j], numbers[k]), qv_feast(numbers[i], numbers[j], numbers[k]),
                      "qv_feast(%" PRIu64 ", %" PRIu64 ", %" PRIu64 ")", numbers[i], numbers[j], numbers[k]);
                for (l = 0; l < COUNT(numbers); l++)
                    check_date_numbers(numbers[i], numbers[j], numbers[k], numbers[l]);
            }
        }
}

/* Distances. */

#define DISTANCE_ARGUMENTS(a) (a)[0], (a)[1], (a)[2], (a)[3], (a)[4], (a)[5], (a)[6], (a)[7]
#define DISTANCE_CALL "(%" PRIu64 ", %" PRIu64 ", %" PRIu64 ", %" PRIu64 ", %" PRIu64 ", %" PRIu64 ", %" PRIu64 ", %" PRIu64 ")"

static void expect_distance(const uint64_t a[8], uint32_t refusal, int32_t distance)
{
    uint32_t got_refusal = qv_distance_refusal(DISTANCE_ARGUMENTS(a));
    int32_t got = qv_distance(DISTANCE_ARGUMENTS(a));
    int32_t back = qv_distance(a[4], a[5], a[6], a[7], a[0], a[1], a[2], a[3]);
    check(refusal, got_refusal, "qv_distance_refusal" DISTANCE_CALL, DISTANCE_ARGUMENTS(a));
    check(distance, got, "qv_distance" DISTANCE_CALL, DISTANCE_ARGUMENTS(a));
    check(-distance, back, "the dates changed about: qv_distance" DISTANCE_CALL, DISTANCE_ARGUMENTS(a));
}

/* The distance is the difference of the days, and the refusal the first date's before the second's. */
static void check_distance(const uint64_t a[8])
{
    uint32_t refusal = date_refusal(a[0], a[1], a[2], a[3]);
    if (refusal == 0)
        refusal = date_refusal(a[4], a[5], a[6], a[7]);
    if (refusal != 0)
        expect_distance(a, refusal, 0);
    else
        expect_distance(a, 0, (int32_t)qv_day(a[4], a[5], a[6], a[7]) - (int32_t)qv_day(a[0], a[1], a[2], a[3]));
}

static void check_known_distances(void)
{
    static const struct {
        uint64_t dates[8];
        uint32_t refusal;
        int32_t distance;
    } known[] = {
        {{1, 1582, 10, 5, 2, 1582, 10, 15}, 0, 0},
        {{1, 1, 1, 1, 1, 9999, 12, 31}, 0, 3652133},
        {{2, 2000, 3, 1, 2, 2000, 2, 28}, 0, -2},
        {{1, 1900, 2, 28, 1, 1900, 3, 1}, 0, 2},
        {{2, 1900, 2, 28, 2, 1900, 3, 1}, 0, 1},
        {{2, 1582, 10, 14, 2, 1581, 1, 1}, QV_SPAN, 0},
        {{3, 2024, 5, 5, 1, 2024, 4, 22}, 0, 0},
        {{3, 1900, 2, 28, 3, 1900, 3, 1}, 0, 1},
        {{3, 1582, 10, 14, 3, 1581, 1, 1}, QV_SPAN, 0},
        {{1, 1, 2, 30, 4, 1, 1, 1}, QV_DATE, 0},
        {{2, 1581, 1, 1, 0, 0, 0, 0}, QV_YEAR, 0},
        {{0, 0, 0, 0, 2, 1582, 1, 1}, QV_NAME, 0},
        {{1, 1, 1, 1, 2, 1582, 1, 1}, QV_SPAN, 0},
    };
    size_t i;
    for (i = 0; i < COUNT(known); i++)
        expect_distance(known[i].dates, known[i].refusal, known[i].distance);
}

/* Every two places of a good pair of dates hold every two numbers. */
static void check_distance_numbers(void)
{
    static const uint64_t good[8] = {1, 1225, 3, 30, 2, 1587, 4, 7};
    uint64_t a[8];
    size_t place, other, i, j;
    for (place = 0; place < 8; place++)
        for (other = 0; other < 8; other++)
            for (i = 0; i < COUNT(numbers); i++)
                for (j = 0; j < COUNT(numbers); j++) {
                    memcpy(a, good, sizeof a);
                    a[place] = numbers[i];
                    a[other] = numbers[j];
                    check_distance(a);
                }
}

/* Dates of which most are good and some are bad in each way. */
static void check_random_distances(void)
{
    uint64_t a[8];
    long rounds;
    int date;
    for (rounds = 0; rounds < 200000; rounds++) {
        for (date = 0; date < 8; date += 4) {
            a[date] = random_below(40) == 0 ? 4 * random_below(2) : 1 + random_below(3);
            a[date + 1] = random_below(4) == 0 ? random_below(10050) : 1575 + random_below(8425);
            a[date + 2] = random_below(40) == 0 ? 13 * random_below(2) : 1 + random_below(12);
            a[date + 3] = random_below(33);
        }
        check_distance(a);
    }
}

/* Feasts. */

/* All feasts of all years; the lines of the words for every eleventh year, and for those at the edges. */
static void check_every_feast(uint64_t style)
{
    uint64_t year, number;
    for (year = 1; year <= LAST_YEAR; year++)
        for (number = 1; number <= FEASTS; number++) {
            uint32_t wanted = wanted_feast(style, number, year), answer = qv_feast(style, number, year);
            check(wanted, answer, "qv_feast(%" PRIu64 ", %" PRIu64 ", %" PRIu64 ")", style, number, year);
            if (year % 11 == 0 || year == 1 || (year >= 1580 && year <= 1584) || year >= 9998)
                expect_phrase("", feasts[number - 1].word, year, style, answer);
        }
}

static void check_known_feasts(void)
{
    static const struct {
        uint64_t style, feast, year, month, day;
    } known[] = {
        {2, EASTER, 2025, 4, 20}, {2, EASTER, 1954, 4, 18}, {2, EASTER, 1810, 4, 22}, {2, EASTER, 1981, 4, 19},
        {2, EASTER, 1818, 3, 22}, {2, EASTER, 1943, 4, 25}, {1, EASTER, 1225, 3, 30}, {2, ADVENT, 1582, 11, 28},
        {3, EASTER, 2024, 5, 5}, {3, EASTER, 2025, 4, 20}, {3, EASTER, 1583, 4, 10}, {3, EASTER, 1900, 4, 22}, {3, ADVENT, 1582, 11, 28},
    };
    size_t i;
    for (i = 0; i < COUNT(known); i++) {
        uint32_t wanted = qv_day(known[i].style, known[i].year, known[i].month, known[i].day);
        check(wanted, qv_feast(known[i].style, known[i].feast, known[i].year),
              "qv_feast(%" PRIu64 ", %" PRIu64 ", %" PRIu64 ")", known[i].style, known[i].feast, known[i].year);
        expect_phrase("", feasts[known[i].feast - 1].word, known[i].year, known[i].style, wanted);
    }
}

/* Lines. */

enum { WRAPPERS = 31, FIRST_OF_WEEKDAY = 3, FIRST_ON_OR = 17 };

static const char *const wrappers[WRAPPERS] = {
    "eve of ", "morrow of ", "octave of ",
    "mon after ", "tue after ", "wed after ", "thu after ", "fri after ", "sat after ", "sun after ",
    "mon before ", "tue before ", "wed before ", "thu before ", "fri before ", "sat before ", "sun before ",
    "mon on or after ", "tue on or after ", "wed on or after ", "thu on or after ", "fri on or after ", "sat on or after ",
    "sun on or after ",
    "mon on or before ", "tue on or before ", "wed on or before ", "thu on or before ", "fri on or before ", "sat on or before ",
    "sun on or before ",
};

static int leads_on(int weekday_wrapper)
{
    return (weekday_wrapper - FIRST_OF_WEEKDAY) / 7 % 2 == 0;
}

static uint32_t weekday_of_wrapper(int weekday_wrapper)
{
    return (uint32_t)(weekday_wrapper - FIRST_OF_WEEKDAY) % 7 + 1;
}

/* The day to which a wrapper leads from a day or a refusal, by counting on or back. */
static uint32_t wrapped(int wrapper, uint64_t style, uint32_t day)
{
    static const int steps[FIRST_OF_WEEKDAY] = {-1, 1, 7};
    int step = leads_on(wrapper) ? 1 : -1;
    if (day < QV_FIRST_DAY)
        return day;
    if (wrapper < FIRST_ON_OR)
        day += (uint32_t)(wrapper < FIRST_OF_WEEKDAY ? steps[wrapper] : step);
    while (wrapper >= FIRST_OF_WEEKDAY && day % 7 + 1 != weekday_of_wrapper(wrapper))
        day += (uint32_t)step;
    return in_span(style, day) ? day : QV_SPAN;
}

static void check_known_lines(void)
{
    static const struct {
        const char *wrappers, *anchor;
        uint64_t year, style;
        uint32_t answer;
    } known[] = {
        {"", "easter", 1225, 1, 2168578},
        {"tue after ", "quasimodo", 1587, 2, 2300796},
        {"tue after ", "quasimodo", 1587, 1, 2300824},
        {"", "29.2", 1900, 2, QV_DATE},
        {"", "easter", 1582, 2, QV_YEAR},
        {"eve of ", "1.1", 1, 1, QV_SPAN},
        {"", "29.2", 1900, 1, 2415092},
        {"", "15.10", 1582, 2, GREGORIAN_FIRST},
        {"", "14.10", 1582, 2, QV_SPAN},
        {"", "15.10", 1582, 3, GREGORIAN_FIRST},
        {"", "14.10", 1582, 3, QV_SPAN},
        {"", "easter", 1582, 3, QV_YEAR},
        {"", "septuagesima", 1582, 3, QV_YEAR},
        {"", "29.2", 1900, 3, QV_DATE},
        {"octave of ", "25.12", 9999, 3, QV_SPAN},
        {"", "29.2", 1582, 2, QV_DATE},
        {"morrow of eve of ", "1.1", 1, 1, QV_SPAN},
        {"", "advent", 1582, 2, 2299205},
        {"", "epiphany", 1582, 2, QV_SPAN},
        {"", "1.1", 1, 1, QV_FIRST_DAY},
        {"", "31.12", 9999, 1, JULIAN_LAST},
        {"", "31.12", 9999, 2, GREGORIAN_LAST},
        {"octave of ", "24.12", 9999, 2, GREGORIAN_LAST},
        {"octave of ", "25.12", 9999, 2, QV_SPAN},
        {"eve of morrow of ", "31.12", 9999, 1, QV_SPAN},
        {"octave of eve of ", "15.10", 1582, 2, QV_SPAN},
        {"eve of ", "1.1", 1900, 2, 2415020},
        {"", "31.2", 1581, 2, QV_YEAR},
        {"", "31.2", 1582, 2, QV_DATE},
        {"eve of ", "31.2", 9999, 1, QV_DATE},
        {"mon before ", "easter", 1582, 2, QV_YEAR},
        {"", "32.1", 1581, 2, QV_FORM},
        {"tue on or after ", "martin", 1587, 1, 2301027},
        {"sun on or after ", "easter", 1225, 1, 2168578},
        {"sun on or before ", "easter", 1225, 1, 2168578},
        {"sat on or before ", "1.1", 1, 1, QV_FIRST_DAY},
        {"sun on or before ", "1.1", 1, 1, QV_SPAN},
        {"fri on or after ", "31.12", 9999, 2, GREGORIAN_LAST},
        {"sat on or after ", "31.12", 9999, 2, QV_SPAN},
    };
    size_t i;
    for (i = 0; i < COUNT(known); i++)
        expect_phrase(known[i].wrappers, known[i].anchor, known[i].year, known[i].style, known[i].answer);
}

static void check_lines_of_no_form(void)
{
    static const char *const lines[] = {
        "J", "1225 J", "easter J", "easter 1225", "easter 1225 ", "easter 1225 j", "easter 1225 o", "easter 1225 N", "easter 1225 0",
        "easter 1225 JG", "easter 2024 OG",
        "easter 1225 J J", "easter 1225J", "Easter 1225 J", "EASTER 1225 J", " easter 1225 J", "easter 1225 J ",
        "easter  1225 J", "easter 1225  J", "easter\t1225 J", "easter 1225 J\r", "easter 1225 J\n", "easter 0 J",
        "easter 0225 J", "easter 01225 J", "easter 10000 J", "easter -225 J", "easter +225 J", "easter 12 25 J",
        "easter 4294968521 J", "easters 1225 J", "easte 1225 J", "easter easter 1225 J", "easter of eve 1225 J",
        "eve of 1225 J", "eve easter 1225 J", "eve ofeaster 1225 J", "eve  of easter 1225 J", "eveof easter 1225 J",
        "eve of  easter 1225 J", "eve of", "after easter 1225 J", "tue easter 1225 J", "tue of easter 1225 J",
        "tues after easter 1225 J", "Tue after easter 1225 J", "tue after tue 1225 J", "tue after 1225 J",
        "tue  after easter 1225 J", "easter after tue 1225 J", "vigil of easter 1225 J", "on easter 1225 J",
        "on or after easter 1225 J", "tue on or easter 1225 J", "tue on after easter 1225 J", "tue or after easter 1225 J",
        "tue on or of easter 1225 J", "tue on or after 1225 J", "tue onor after easter 1225 J", "tue on  or after easter 1225 J",
        "tue On or after easter 1225 J", "eve on or of easter 1225 J", "eve on or after easter 1225 J", "tue after on or easter 1225 J",
        "32.1 1225 J", "0.1 1225 J", "1.0 1225 J", "1.13 1225 J", "01.1 1225 J", "1.01 1225 J", "100.1 1225 J",
        "1.100 1225 J", "1.1. 1225 J", ".1 1225 J", "1. 1225 J", "1 1225 J", "1,1 1225 J", "1. 1 1225 J", "1.1.1 1225 J",
        "+1.1 1225 J", "-1.1 1225 J", "257.1 1225 J", "1.257 1225 J", "1.1 easter 1225 J", "1.1 1225 J 1.1 1225 J",
    };
    size_t i;
    for (i = 0; i < COUNT(lines); i++)
        expect_refused(lines[i], strlen(lines[i]), QV_FORM);
}

static void check_null(void)
{
    check(QV_LENGTH, qv_line(NULL, 0), "qv_line(NULL, 0)");
    check(0, (int64_t)qv_part_start(NULL, 0), "qv_part_start(NULL, 0)");
    check(0, (int64_t)qv_part_length(NULL, 0), "qv_part_length(NULL, 0)");
    check(0, qv_marks_refusal(NULL, 0, 0), "qv_marks_refusal(NULL, 0, 0)");
    check(0, (int64_t)qv_marks(NULL, 0, NULL, 0), "qv_marks(NULL, 0, NULL, 0)");
    check(0, qv_page_refusal(NULL, 0, 0), "qv_page_refusal(NULL, 0, 0)");
    check(0, (int64_t)qv_page(NULL, 0, NULL, 0), "qv_page(NULL, 0, NULL, 0)");
    check(QV_LENGTH, qv_page_refusal((const uint8_t *)"\n", 1, 0), "qv_page_refusal(\"\\n\", 1, 0)");
    check(0, (int64_t)qv_page((const uint8_t *)"\n", 1, NULL, 0), "qv_page(\"\\n\", 1, NULL, 0)");
}

/* A line of one byte over and over has no form, and one of no bytes or too many is refused before that. */
static void check_lines_of_one_byte(void)
{
    static char line[BLOCK];
    int byte;
    size_t length;
    for (byte = 0; byte < 256; byte++) {
        memset(line, byte, sizeof line);
        for (length = 0; length <= LONGEST_TRIED; length++)
            expect_refused(line, length, length == 0 || length > LONGEST ? QV_LENGTH : QV_FORM);
    }
    expect_refused(line, BLOCK - GUARD, QV_LENGTH);
}

/* Chains of one wrapper before dates and feasts of all lengths up to the tried one, and past the longest line that is read. */
static void check_lengths(void)
{
    static const struct {
        const char *anchor;
        uint64_t year;
    } cores[] = {
        {"9.9", 9}, {"9.9", 99}, {"9.9", 999}, {"9.9", 1999}, {"19.9", 1999}, {"19.10", 1999}, {"easter", 1999}, {"laetare", 1999},
        {"epiphany", 1999}, {"quasimodo", 1999}, {"sexagesima", 1999}, {"bartholomew", 1999}, {"septuagesima", 1999},
    };
    char chain[LONGEST_TRIED + 18];
    int wrapper;
    size_t core, length;
    for (wrapper = 0; wrapper < WRAPPERS; wrapper++)
        for (core = 0; core < COUNT(cores); core++) {
            struct reading alone;
            uint32_t day;
            sprintf(chain, "%s %" PRIu64 " J", cores[core].anchor, cores[core].year);
            alone = reading(chain, strlen(chain));
            for (day = alone.answer, chain[0] = 0; strlen(chain) <= LONGEST_TRIED; day = wrapped(wrapper, QV_JULIAN, day)) {
                expect_phrase(chain, cores[core].anchor, cores[core].year, QV_JULIAN, day);
                strcat(chain, wrappers[wrapper]);
            }
        }
    for (length = 7; length <= LONGEST; length++)
        check(1, accepted_of_length[length], "a line of %zu bytes is accepted", length);
    for (length = LONGEST + 1; length <= LONGEST_TRIED; length++)
        check(0, accepted_of_length[length], "a line of %zu bytes is accepted", length);
}

/* A good line that is cut at its end is none, and one that is cut at its head only where a wrapper ends. */
static void check_cut_lines(void)
{
    static const char line[] = "octave of tue before eve of septuagesima 1587 G";
    size_t length = sizeof line - 1, cut;
    for (cut = 0; cut < length; cut++)
        expect_refused(line, cut, cut == 0 ? QV_LENGTH : QV_FORM);
    for (cut = 0; cut <= length; cut++) {
        struct reading r = reading(line + cut, length - cut);
        int whole = cut == 0 || cut == 10 || cut == 21 || cut == 28;
        check_line(whole, r.answer >= QV_FIRST_DAY, "accepts", line + cut, length - cut);
        check_line(whole ? 12 : 0, (int64_t)r.length, "qv_part_length", line + cut, length - cut);
        check_line(whole ? 28 - (int64_t)cut : 0, (int64_t)r.start, "qv_part_start", line + cut, length - cut);
    }
}

/* What "easter 1225 J" answers with this byte at this place: another year or style, or no form. */
static uint32_t wanted_with_byte(size_t place, int byte)
{
    uint64_t year = 1225, unit = place == 7 ? 1000 : place == 8 ? 100 : place == 9 ? 10 : 1;
    if (place == 12 && (byte == 'J' || byte == 'G' || byte == 'O'))
        return qv_feast(byte == 'J' ? QV_JULIAN : byte == 'G' ? QV_GREGORIAN : QV_OLD_EASTER, EASTER, year);
    if (place < 7 || place > 10)
        return byte == "easter 1225 J"[place] ? qv_feast(QV_JULIAN, EASTER, year) : QV_FORM;
    if (byte < (place == 7 ? '1' : '0') || byte > '9')
        return QV_FORM;
    return qv_feast(QV_JULIAN, EASTER, year - year / unit % 10 * unit + (uint64_t)(byte - '0') * unit);
}

/* Every byte at every place of a good line, in the place of the one there. */
static void check_changed_bytes(void)
{
    char line[] = "easter 1225 J";
    size_t length = sizeof line - 1, place;
    int byte;
    for (place = 0; place < length; place++) {
        char good = line[place];
        for (byte = 0; byte < 256; byte++) {
            uint32_t wanted = wanted_with_byte(place, byte);
            line[place] = (char)byte;
            expect_line(line, length, wanted, 0, wanted < QV_FIRST_DAY ? 0 : 6);
        }
        line[place] = good;
    }
}

/* Every byte put in at every place of a line that no byte more leaves a line. */
static void check_added_bytes(const char *good)
{
    char line[LONGEST];
    size_t length = strlen(good), place;
    int byte;
    for (place = 0; place <= length; place++)
        for (byte = 0; byte < 256; byte++) {
            memcpy(line, good, place);
            line[place] = (char)byte;
            memcpy(line + place + 1, good + place, length - place);
            expect_refused(line, length + 1, QV_FORM);
        }
}

/* Every wrapper of a weekday on each of fourteen days: one to seven days off, or with "on or" zero to six, and of that weekday. */
static void check_weekday_words(uint64_t style, uint64_t year)
{
    char line[64];
    uint64_t day;
    int word;
    for (day = 1; day <= 14; day++)
        for (word = FIRST_OF_WEEKDAY; word < WRAPPERS; word++) {
            uint32_t from = qv_day(style, year, 11, day), weekday = weekday_of_wrapper(word), least = word < FIRST_ON_OR ? 1 : 0, off;
            int length = sprintf(line, "%s%" PRIu64 ".11 %" PRIu64 " %c", wrappers[word], day, year, style_letter(style));
            struct reading r = reading(line, (size_t)length);
            off = leads_on(word) ? r.answer - from : from - r.answer;
            check_line(1, off >= least && off <= least + 6, "at most seven days off", line, (size_t)length);
            check_line(qv_weekday(style, from) == weekday, off % 7 == 0, "whole weeks off", line, (size_t)length);
            check_line(weekday, qv_weekday(style, r.answer), "the weekday", line, (size_t)length);
        }
}

/* A date within a month of the span's edges, or anywhere. */
static void random_date(uint64_t style, uint64_t *year, uint64_t *month, uint64_t *day)
{
    uint64_t where = random_below(3), first = first_year(style);
    *year = where == 0 ? first : where == 1 ? LAST_YEAR : first + random_below(LAST_YEAR - first + 1);
    *month = where == 0 ? (style == QV_JULIAN ? 1 : 10) : where == 1 ? 12 : 1 + random_below(12);
    *day = 1 + random_below(31);
}

/* Chains of wrappers of all kinds, each of which acts on what stands behind it. */
static void check_random_chains(void)
{
    char chain[LONGEST_TRIED], date[48];
    uint64_t style, year, month, day;
    long rounds;
    for (rounds = 0; rounds < 50000; rounds++) {
        int chosen[12], count = (int)random_below(12), i;
        uint32_t answer;
        style = 1 + random_below(3);
        random_date(style, &year, &month, &day);
        answer = date_refusal(style, year, month, day);
        if (answer == 0)
            answer = qv_day(style, year, month, day);
        for (i = 0, chain[0] = 0; i < count; i++)
            strcat(chain, wrappers[chosen[i] = (int)random_below(WRAPPERS)]);
        for (i = count - 1; i >= 0; i--)
            answer = wrapped(chosen[i], style, answer);
        sprintf(date, "%" PRIu64 ".%" PRIu64, day, month);
        expect_phrase(chain, date, year, style, answer);
    }
}

/* Transcripts. */

/* A mark at the end of the longest transcript is found, and one byte more is refused with the place as it was. */
static void check_longest_transcript(void)
{
    static uint8_t text[LONGEST_TRANSCRIPT + 1], place[PLACE];
    memset(text, 'a', sizeof text);
    memcpy(text + LONGEST_TRANSCRIPT - 17, "[[easter 1225 J]]", 17);
    check(0, qv_marks_refusal(text, LONGEST_TRANSCRIPT, PLACE), "qv_marks_refusal(.., 65536, 20)");
    check(1, (int64_t)qv_marks(text, LONGEST_TRANSCRIPT, place, PLACE), "qv_marks(.., 65536, .., 20)");
    memset(place, GUARD_BYTE, PLACE);
    check(QV_LENGTH, qv_marks_refusal(text, LONGEST_TRANSCRIPT + 1, PLACE), "qv_marks_refusal(.., 65537, 20)");
    check(0, (int64_t)qv_marks(text, LONGEST_TRANSCRIPT + 1, place, PLACE), "qv_marks(.., 65537, .., 20)");
    check(1, all_are(place, PLACE, GUARD_BYTE), "keeps its place: qv_marks(.., 65537, .., 20)");
}

/* Pages. */

static struct block pages, places;

/* How many lines the page has, of which the last need not be ended. */
static size_t lines_in(const char *page, size_t length)
{
    size_t count = length > 0 && page[length - 1] != '\n', i;
    for (i = 0; i < length; i++)
        count += page[i] == '\n';
    return count;
}

static void check_page(int64_t wanted, int64_t got, const char *what, const char *page, size_t length, size_t size)
{
    if (wanted == got)
        checks++;
    else
        check(wanted, got, "%s(\"%s\", %zu, %zu)", what, shown(page, length), length, size);
}

/* The places hold what qv_line answers for each line alone, low byte first. */
static void check_numbers(const uint8_t *place, const char *page, size_t length, size_t size)
{
    const char *end = page + length, *line, *feed;
    for (line = page; line < end; line = feed + 1, place += NUMBER) {
        uint32_t got = place[0] | (uint32_t)place[1] << 8 | (uint32_t)place[2] << 16 | (uint32_t)place[3] << 24;
        feed = memchr(line, '\n', (size_t)(end - line));
        if (feed == NULL)
            feed = end;
        check_page(qv_line((const uint8_t *)line, (size_t)(feed - line)), got, "a line of qv_page", page, length, size);
    }
}

/* The page and its places are lent at the blocks' ends or starts; a call changes its lines' places alone, and a refused one nothing. */
static void expect_page_at(int at_end, int byte, const char *page, size_t length, size_t size)
{
    struct lent text = lend(pages, length, at_end, byte), lent = lend(places, size, at_end, byte);
    size_t wanted = lines_in(page, length), count, filled;
    uint32_t refusal = length > LONGEST_PAGE || wanted > size / NUMBER ? QV_LENGTH : 0;
    if (refusal != 0)
        wanted = 0;
    memcpy(text.bytes, page, length);
    check_page(refusal, qv_page_refusal(text.bytes, length, size), "qv_page_refusal", page, length, size);
    count = qv_page(text.bytes, length, lent.bytes, size);
    check_page((int64_t)wanted, (int64_t)count, "qv_page", page, length, size);
    if (count == wanted && count > 0)
        check_numbers(lent.bytes, page, length, size);
    filled = NUMBER * wanted;
    check_page(1, all_are(lent.bytes + filled, size - filled, byte), "keeps the bytes behind its lines' places: ", page, length, size);
    check_page(0, memcmp(text.bytes, page, length) != 0, "changes its page: ", page, length, size);
    check_page(1, all_are(text.beside, GUARD, byte), "keeps the bytes beside its page: ", page, length, size);
    check_page(1, all_are(lent.beside, GUARD, byte), "keeps the bytes beside its places: ", page, length, size);
}

static void expect_page(const char *page, size_t length, size_t size)
{
    lent_line = page;
    lent_length = length;
    expect_page_at(1, 0, page, length, size);
    expect_page_at(0, GUARD_BYTE, page, length, size);
}

/* The page with as many bytes of places as its lines need, and with so many less and more. */
static void expect_page_about(const char *page, size_t length, size_t about)
{
    size_t needed = NUMBER * lines_in(page, length), size;
    for (size = needed < about ? 0 : needed - about; size <= needed + about; size++)
        expect_page(page, length, size);
}

static const char page_of_all[] =
    "\neaster 1225 J\n29.2 1900 G\neaster 1582 G\n\neve of 1.1 1 J\nno such line\neaster 1225 J\r\n31.12 9999 G\r\n\xff\n\x8a\nx\n"
    "tue after quasimodo 1587 J\neaster 1225 J\0\n\n\n1.1 1 J\n15.10 1582 G\n14.10 1582 G\neaster 1225 J \nadvent 1582 G\nJ\n";

/* A page with every refusal, cut at every byte, with few places and with enough. */
static void check_cut_pages(void)
{
    size_t length, size;
    for (length = 0; length < sizeof page_of_all; length++) {
        expect_page_about(page_of_all, length, NUMBER + 1);
        for (size = 0; size < NUMBER; size++)
            expect_page(page_of_all, length, size);
    }
}

/* Every number of bytes of places up to far more than the lines need. */
static void check_page_sizes(void)
{
    size_t size;
    for (size = 0; size <= 2 * NUMBER * lines_in(page_of_all, sizeof page_of_all - 1); size++)
        expect_page(page_of_all, sizeof page_of_all - 1, size);
    for (size = 0; size <= 4 * NUMBER; size++) {
        expect_page("", 0, size);
        expect_page("\n", 1, size);
        expect_page("easter 1225 J", 13, size);
        expect_page("easter 1225 J\n29.2 1900 J\n", 26, size);
    }
}

/* A page of one byte over and over is one line, or as many as its line feeds. */
static void check_pages_of_one_byte(void)
{
    char page[LONGEST_TRIED];
    int byte;
    size_t length;
    for (byte = 0; byte < 256; byte++) {
        memset(page, byte, sizeof page);
        for (length = 0; length <= LONGEST_TRIED; length++)
            expect_page_about(page, length, 1);
    }
}

/* Every byte at every place of a page, in the place of the one there. */
static void check_changed_pages(void)
{
    static const char good[] = "1.1 1 J\n\n29.2 1900 G";
    char page[sizeof good];
    size_t i;
    for (i = 0; i < 256 * (sizeof good - 1); i++) {
        memcpy(page, good, sizeof good);
        page[i / 256] = (char)(i % 256);
        expect_page_about(page, sizeof good - 1, 1);
    }
}

/* Pages about the longest, of one byte over and over and of good lines, with a good line at the end. */
static void check_longest_pages(void)
{
    static const char *const fillings[] = {"a", "\n", "a\n", "1.1 1 J\n", "\r\n"};
    static char page[LONGEST_PAGE + 1];
    size_t filling, length, i;
    for (filling = 0; filling < COUNT(fillings); filling++)
        for (length = LONGEST_PAGE - 1; length <= LONGEST_PAGE + 1; length++) {
            for (i = 0; i < length; i++)
                page[i] = fillings[filling][i % strlen(fillings[filling])];
            expect_page_about(page, length, 1);
            memcpy(page + length - 8, "\n1.1 1 J", 8);
            expect_page_about(page, length, 1);
            expect_page(page, length, 0);
            expect_page(page, length, NUMBER * LONGEST_PAGE);
        }
}

/* Every size may be given to the call that tells the refusal, which is lent no places. */
static void check_page_refusals(void)
{
    static const size_t counts[] = {0, 1, 2, 3, 4, 7, 8, 12, LONGEST_PAGE - 1, LONGEST_PAGE, LONGEST_PAGE + 1};
    static uint8_t page[LONGEST_PAGE + 1];
    size_t i, j;
    memset(page, '\n', sizeof page);
    for (i = 0; i < COUNT(numbers); i++)
        for (j = 0; j < COUNT(counts); j++) {
            size_t size = (size_t)numbers[i], count = counts[j];
            uint32_t refusal = count > LONGEST_PAGE || count > size / NUMBER ? QV_LENGTH : 0;
            check(refusal, qv_page_refusal(page, count, size), "qv_page_refusal(.., %zu, %zu)", count, size);
        }
}

static void check_style(uint64_t style)
{
    static const uint64_t years[] = {1, 1581, 1582, 1583, 1587, 1900, 2000, 9998, 9999};
    size_t i;
    check_every_day(style);
    check_weekdays_cycle(style);
    check_month_edges(style);
    check_every_feast(style);
    for (i = 0; i < COUNT(years); i++) {
        check_dates_of_year(style, years[i]);
        if (is_served(style, years[i]))
            check_weekday_words(style, years[i]);
    }
}

static void check_calls_on_numbers(void)
{
    check_all_numbers();
    check_known_distances();
    check_distance_numbers();
    check_random_distances();
    check_known_feasts();
}

static void check_calls_on_lines(void)
{
    check_null();
    check_known_lines();
    check_lines_of_no_form();
    check_lines_of_one_byte();
    check_lengths();
    check_cut_lines();
    check_changed_bytes();
    check_added_bytes("tue after eve of easter 1225 J");
    check_added_bytes("eve of tue on or after easter 1225 J");
    check_random_chains();
}

static void check_calls_on_pages(void)
{
    check_cut_pages();
    check_page_sizes();
    check_pages_of_one_byte();
    check_changed_pages();
    check_longest_pages();
    check_page_refusals();
}

static void check_calls(void)
{
    check_style(QV_JULIAN);
    check_style(QV_GREGORIAN);
    check_style(QV_OLD_EASTER);
    check_calls_on_numbers();
    check_calls_on_lines();
    check_longest_transcript();
    check_calls_on_pages();
}

int main(void)
{
    block = make_block(BLOCK);
    pages = make_block(2 * BLOCK);
    places = make_block(5 * BLOCK);
    if (!ends_within_blocks(check_calls)) {
        fprintf(stderr, "calls: stopped at a byte that was not lent; the last line: (\"%s\", %zu)\n",
                shown(lent_line, lent_length), lent_length);
        return 1;
    }
    if (failures > 0) {
        fprintf(stderr, "calls: %lu of %lu checks failed\n", failures, checks);
        return 1;
    }
    printf("calls: %lu checks passed\n", checks);
    return 0;
}
