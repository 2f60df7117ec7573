/*
 * qashmelvit.h - days of dating lines and of pages of them, of feasts and of
 * dates, in the Julian style, the Gregorian, and that of the old Easter with
 * new dates; and the marks of transcripts
 *
 * Qashmelvit finds the day that a dating line of an old letter names, such as
 * "tue after quasimodo 1587 G". It answers a page of such lines in one call,
 * and finds the dating lines that are marked in a transcript. Each call has one
 * answer for every input: any number and any byte may be given. The archive
 * libqashmelvit.a is for x86-64, and a program is linked with it by
 *
 *     cc -o tag tag.c $(pkg-config --cflags --libs qashmelvit)
 *
 * A call for a day returns the day, a Julian Day Number, or the number of a
 * refusal, the lowest that holds. No day is below QV_FIRST_DAY, so that a
 * smaller number is a refusal:
 *
 *     const uint8_t *line = (const uint8_t *)text;
 *     size_t length = strlen(text);
 *     uint32_t answer = qv_line(line, length);
 *     if (answer < QV_FIRST_DAY)
 *         refused(answer);
 *     else
 *         found(answer, qv_part_start(line, length), qv_part_length(line, length));
 *
 * A call that fills places puts numbers into them, each of four bytes, low byte
 * first. number_at(numbers, i) is number i, counted from 0, of those that start
 * at numbers:
 *
 *     static uint32_t number_at(const uint8_t *numbers, size_t i)
 *     {
 *         const uint8_t *byte = numbers + 4 * i;
 *         return byte[0] | (uint32_t)byte[1] << 8 | (uint32_t)byte[2] << 16 |
 *                (uint32_t)byte[3] << 24;
 *     }
 *
 * ATTRIBUTES
 *
 * A call keeps nothing between calls and allocates nothing. It changes no byte
 * that it is lent, but for the places that qv_page and qv_marks fill. So any
 * number of threads may call at once, where each has places of its own.
 *
 * DATING LINES
 *
 * A dating line is lower-case ASCII but for the style letter. It has one space
 * between its parts and none at its ends, and no carriage return, line feed or
 * zero byte after it:
 *
 *     line      phrase year style
 *     phrase    a feast word, or a date, or a wrapper before a phrase
 *     wrapper   eve of | morrow of | octave of | weekday side
 *     weekday   mon | tue | wed | thu | fri | sat | sun
 *     side      after | before | on or after | on or before
 *     date      day.month      1 to 31 and 1 to 12, without leading zeros
 *     year      1 to 4 digits, the first not 0
 *     style     J | G | O      Julian, Gregorian, old Easter with new dates
 *
 * The feast or date is taken in the named year; then each wrapper acts, the
 * innermost first. Eve is one day earlier, morrow one later, octave seven
 * later; after is the first such weekday strictly later, before strictly
 * earlier. With "on or" the starting day counts too, so that a feast on that
 * weekday answers itself. Every day on the way must lie in the style's span;
 * the last may fall in another year than the one named.
 *
 * FEAST WORDS
 *
 * Each word follows its number, and is followed by its days from Easter or its
 * day.month:
 *
 *      1 septuagesima -63    17 cantate        28    33 magdalene     22.7
 *      2 sexagesima   -56    18 rogate         35    34 james         25.7
 *      3 estomihi     -49    19 ascension      39    35 laurence      10.8
 *      4 ashes        -46    20 exaudi         42    36 assumption    15.8
 *      5 invocavit    -42    21 pentecost      49    37 bartholomew   24.8
 *      6 reminiscere  -35    22 trinity        56    38 matthew       21.9
 *      7 oculi        -28    23 corpus         60    39 michael       29.9
 *      8 laetare      -21    24 circumcision  1.1    40 luke         18.10
 *      9 judica       -14    25 epiphany      6.1    41 simon        28.10
 *     10 palms         -7    26 candlemas     2.2    42 saints        1.11
 *     11 cena          -3    27 matthias     24.2    43 martin       11.11
 *     12 parasceve     -2    28 annunciation 25.3    44 andrew       30.11
 *     13 easter         0    29 mark         25.4    45 nicholas      6.12
 *     14 quasimodo      7    30 philip        1.5    46 thomas       21.12
 *     15 misericordia  14    31 baptist      24.6    47 christmas    25.12
 *     16 jubilate      21    32 peter        29.6    48 advent
 *
 * Advent is the Sunday from 27 November to 3 December. In a leap year of the
 * style matthias is kept on 25.2, since the old leap day was put in at
 * 24 February; the date 24.2 is 24 February in every year.
 */
#ifndef QASHMELVIT_H
#define QASHMELVIT_H

#include <stddef.h>
#include <stdint.h>

#ifdef __cplusplus
extern "C" {
#endif

/*
 * STYLES
 *
 * A style serves the days of its span. O is for those who date by the new
 * calendar and keep the old Easter, as most Orthodox churches with new dates
 * have done since 1924. Its dates, leap years and served years are those of G.
 * Easter, with every feast that hangs on it, is the same day as in J.
 */

/* J, Julian: 1 January 1 (1721424) to 31 December 9999 (5373557) */
#define QV_JULIAN 1

/* G, Gregorian: 15 October 1582 (2299161) to 31 December 9999 (5373484) */
#define QV_GREGORIAN 2

/* O, old Easter: 15 October 1582 (2299161) to 31 December 9999 (5373484) */
#define QV_OLD_EASTER 3

/*
 * REFUSALS
 *
 * The refusals stand in the order of checking. Of a transcript the length is
 * checked first, then the encoding, then the number of places.
 */

/* no such style or feast number */
#define QV_NAME 1

/*
 * a dating line of 0 or of more than 120 bytes; a page or transcript of more
 * than 65,536 bytes; fewer places than lines or marks
 */
#define QV_LENGTH 2

/* no dating line by the grammar */
#define QV_FORM 3

/*
 * J outside 1 to 9999, G and O outside 1582 to 9999, or their 1582 for a feast
 * hung on Easter
 */
#define QV_YEAR 4

/* no such month, or no such day in that month of that year */
#define QV_DATE 5

/* a day outside the style's span */
#define QV_SPAN 6

/* a transcript that is not UTF-8 */
#define QV_ENCODING 9

/* the first day of all: a call for a day that returns less refuses */
#define QV_FIRST_DAY 1721424

/*
 * VERSION
 *
 * the version of this header and of all that is installed with it
 */
#define QV_VERSION "0.2"

/*
 * CALLS
 *
 * The last indented lines about each call are examples: expressions that hold
 * one after the other. Those that name places have "static uint8_t places[40];"
 * before them.
 */

/*
 * Returns the day that the dating line names, or the refusal: QV_LENGTH,
 * QV_FORM, QV_YEAR, QV_DATE or QV_SPAN, in this order. The line is the length
 * bytes from line on, all of which must be readable; a length of 0 goes with
 * any pointer, NULL too.
 *
 *     qv_line((const uint8_t *)"tue after quasimodo 1587 G", 26) == 2300796
 *     qv_line((const uint8_t *)"tue after quasimodo 1587 J", 26) == 2300824
 *     qv_line((const uint8_t *)"tue on or after martin 1589 J", 29) == 2301755
 *     qv_line((const uint8_t *)"matthias 1900 J", 15) == 2415088
 *     qv_line((const uint8_t *)"25.2 1900 J", 11) == 2415088
 *     qv_line((const uint8_t *)"29.2 1900 G", 11) == QV_DATE
 *     qv_line(NULL, 0) == QV_LENGTH
 */
uint32_t qv_line(const uint8_t *line, size_t length);

/*
 * Returns the offset at which the feast word or date of the line starts, in
 * bytes from the line's first; 0 for a line that qv_line refuses. The line is
 * passed as to qv_line. A feast word or date at the line's head starts at 0
 * too, so that qv_line or the part's length says whether there is one.
 *
 *     qv_part_start((const uint8_t *)"tue after quasimodo 1587 G", 26) == 10
 *     qv_part_start((const uint8_t *)"29.2 1904 G", 11) == 0
 */
size_t qv_part_start(const uint8_t *line, size_t length);

/*
 * Returns how many bytes the feast word or date of the line has; 0 for a line
 * that qv_line refuses, and for no other. The line is passed as to qv_line. The
 * start and this length together are never more than the line's length.
 *
 *     qv_part_length((const uint8_t *)"tue after quasimodo 1587 G", 26) == 9
 *     qv_part_length((const uint8_t *)"29.2 1904 G", 11) == 4
 *     qv_part_length((const uint8_t *)"29.2 1900 G", 11) == 0
 */
size_t qv_part_length(const uint8_t *line, size_t length);

/*
 * Puts the answer to each line of the page into a place of its own, and returns
 * how many lines there are; 0 where qv_page_refusal refuses, and then no byte
 * is changed. A page without lines has 0 too; qv_page_refusal says which of the
 * two it is.
 *
 * The page is the length bytes from page on; one of more than 65,536 bytes is
 * refused. Its lines are joined by line feeds, which are no bytes of them. A
 * last line feed ends a line and opens none, and a page of no bytes has no
 * lines. A blank line is a line of no bytes, and a carriage return is a byte of
 * its line. A blank last line counts only where a line feed ends it, so end
 * every line by one, the last too.
 *
 * A place is 4 bytes, and the size bytes from places on are size / 4 places,
 * the whole part. The first line fills the first place, the second the next,
 * and so on, each with its day or refusal, as qv_line answers it for that line
 * alone. Later places and bytes left over stay as they are. A page that is not
 * too long has at most 65,536 lines, so that 262,144 bytes of places are always
 * enough. This prints the answers to a page of up to 500 lines, with number_at
 * from above, <stdio.h> and <string.h>:
 *
 *     static void print_page(const char *text)
 *     {
 *         const uint8_t *page = (const uint8_t *)text;
 *         size_t length = strlen(text);
 *         uint8_t places[500 * 4];
 *         size_t count = qv_page(page, length, places, sizeof places);
 *         uint32_t refusal = qv_page_refusal(page, length, sizeof places);
 *         if (refusal != 0)
 *             printf("page refused, %u\n", (unsigned)refusal);
 *         for (size_t i = 0; i < count; i++) {
 *             uint32_t answer = number_at(places, i);
 *             if (answer < QV_FIRST_DAY)
 *                 printf("line %zu refused, %u\n", i + 1, (unsigned)answer);
 *             else
 *                 printf("line %zu on day %u\n", i + 1, (unsigned)answer);
 *         }
 *     }
 *
 * All bytes of the page must be readable, and all of the places readable and
 * writable; a length or size of 0 goes with any pointer, NULL too. The page and
 * the places must not overlap, and while the call runs, nothing else may use
 * the places or write to the page.
 *
 *     qv_page((const uint8_t *)"easter 1225 J\n\n29.2 1900 G\n", 27, places, sizeof places) == 3
 *     number_at(places, 0) == 2168578
 *     number_at(places, 1) == QV_LENGTH
 *     number_at(places, 2) == QV_DATE
 *     qv_page((const uint8_t *)"easter 1225 J\r\n\n", 16, places, 11) == 2
 *     number_at(places, 0) == QV_FORM
 *     number_at(places, 2) == QV_DATE
 *     qv_page((const uint8_t *)"easter 1225 J\n", 14, NULL, 0) == 0
 *     qv_page(NULL, 0, NULL, 0) == 0
 */
size_t qv_page(const uint8_t *page, size_t length,
               uint8_t *places, size_t size);

/*
 * Returns why qv_page refuses the page, which is passed as to it, where size
 * bytes of places are lent: QV_LENGTH for more than 65,536 bytes of the page or
 * for fewer places than lines; 0 where it does not refuse. Every size may be
 * given.
 *
 *     qv_page_refusal((const uint8_t *)"easter 1225 J\n29.2 1900 G\n", 26, 8) == 0
 *     qv_page_refusal((const uint8_t *)"easter 1225 J\n29.2 1900 G\n", 26, 7) == QV_LENGTH
 *     qv_page_refusal(NULL, 0, 0) == 0
 */
uint32_t qv_page_refusal(const uint8_t *page, size_t length,
                         size_t size);

/*
 * Returns the day of the feast with this number in the year, or the refusal:
 * QV_NAME, QV_YEAR or QV_SPAN, in this order. Every number may be given.
 *
 *     qv_feast(QV_JULIAN, 13, 1225) == 2168578
 *     qv_feast(QV_GREGORIAN, 13, 1582) == QV_YEAR
 *     qv_feast(QV_GREGORIAN, 25, 1582) == QV_SPAN
 *     qv_feast(QV_OLD_EASTER, 13, 2024) == 2460436
 *     qv_feast(QV_JULIAN, 13, 2024) == 2460436
 */
uint32_t qv_feast(uint64_t style, uint64_t feast, uint64_t year);

/*
 * Returns the day of the date, or the refusal: QV_NAME, QV_YEAR, QV_DATE or
 * QV_SPAN, in this order. Every number may be given.
 *
 *     qv_day(QV_GREGORIAN, 1582, 10, 15) == 2299161
 *     qv_day(QV_GREGORIAN, 1582, 10, 14) == QV_SPAN
 *     qv_day(QV_GREGORIAN, 1582, 2, 29) == QV_DATE
 *     qv_day(QV_OLD_EASTER, 2024, 5, 5) == 2460436
 */
uint32_t qv_day(uint64_t style, uint64_t year,
                uint64_t month, uint64_t day);

/*
 * Returns why the style has no weekday for the day with this number: QV_NAME or
 * QV_SPAN, in this order; 0 where it has one. Every number may be given.
 *
 *     qv_weekday_refusal(QV_JULIAN, 2415092) == 0
 *     qv_weekday_refusal(QV_GREGORIAN, 2299160) == QV_SPAN
 */
uint32_t qv_weekday_refusal(uint64_t style, uint64_t day_number);

/*
 * Returns the weekday of a day of the style's span, 1 for Monday to 7 for
 * Sunday; 0 where qv_weekday_refusal refuses. Every number may be given.
 *
 *     qv_weekday(QV_JULIAN, 2415092) == 2
 *     qv_weekday(QV_GREGORIAN, 2299160) == 0
 */
uint32_t qv_weekday(uint64_t style, uint64_t day_number);

/*
 * Returns why there is no distance from the first date to the second: the first
 * date's refusal, QV_NAME, QV_YEAR, QV_DATE or QV_SPAN, in this order; else the
 * second date's, in the same order; 0 where there is a distance. Every number
 * may be given.
 *
 *     qv_distance_refusal(QV_JULIAN, 1582, 10, 5, QV_GREGORIAN, 1582, 10, 15) == 0
 *     qv_distance_refusal(QV_GREGORIAN, 1582, 10, 14, QV_GREGORIAN, 1581, 1, 1) == QV_SPAN
 */
uint32_t qv_distance_refusal(uint64_t style1, uint64_t year1,
                             uint64_t month1, uint64_t day1,
                             uint64_t style2, uint64_t year2,
                             uint64_t month2, uint64_t day2);

/*
 * Returns the second date's day less the first's, from -3652133 to 3652133; 0
 * where qv_distance_refusal refuses. Where that does not refuse, 0 is a
 * distance: both dates are the same day. Every number may be given.
 *
 *     qv_distance(QV_JULIAN, 1582, 10, 5, QV_GREGORIAN, 1582, 10, 15) == 0
 *     qv_distance(QV_GREGORIAN, 2000, 3, 1, QV_GREGORIAN, 2000, 2, 28) == -2
 */
int32_t qv_distance(uint64_t style1, uint64_t year1,
                    uint64_t month1, uint64_t day1,
                    uint64_t style2, uint64_t year2,
                    uint64_t month2, uint64_t day2);

/*
 * Puts the offsets and the answer of each mark of the transcript into a place
 * of its own, and returns how many marks there are; 0 where qv_marks_refusal
 * refuses, and then no byte is changed. A transcript without marks has 0 too;
 * qv_marks_refusal says which of the two it is.
 *
 * The transcript is the length bytes from text on, which are UTF-8 and at most
 * 65,536. Dating lines stand in it between [[ and ]], pairs that are taken from
 * left to right without overlap, so that [[[x]] marks [x. A mark is what stands
 * between a [[ and the nearest ]] after it with neither pair between; a later
 * [[ starts afresh.
 *
 * A place is 20 bytes, and the size bytes from places on are size / 20 places,
 * the whole part. The first mark fills the first place, the second the next,
 * and so on, each with five numbers:
 *
 *     0  where the mark's text starts, in bytes
 *     1  where it ends, in bytes
 *     2  where it starts, in characters
 *     3  where it ends, in characters
 *     4  its day or refusal, as qv_line answers it for that text
 *
 * A character is a Unicode code point. Bytes and characters are counted from 0,
 * and the end is just past the text. Later places and bytes left over stay as
 * they are. A transcript has at most 16,384 marks, so that 327,680 bytes of
 * places are always enough. With number_at from above:
 *
 *     static uint8_t places[16384 * 20];
 *     size_t count = qv_marks(text, length, places, sizeof places);
 *     uint32_t refusal = qv_marks_refusal(text, length, sizeof places);
 *     if (refusal != 0)
 *         refused(refusal);
 *     for (size_t i = 0; i < count; i++) {
 *         const uint8_t *place = places + i * 20;
 *         marked(number_at(place, 2), number_at(place, 3),
 *                number_at(place, 4));
 *     }
 *
 * All bytes of the transcript must be readable, and all of the places readable
 * and writable; a length or size of 0 goes with any pointer, NULL too. The text
 * and the places must not overlap, and while the call runs, nothing else may
 * use the places or write to the text.
 *
 *     qv_marks((const uint8_t *)"[[easter 1225 J]]", 17, places, sizeof places) == 1
 *     qv_marks((const uint8_t *)"[[easter 1225 J]]", 17, NULL, 0) == 0
 *     qv_marks((const uint8_t *)"no mark", 7, NULL, 0) == 0
 */
size_t qv_marks(const uint8_t *text, size_t length,
                uint8_t *places, size_t size);

/*
 * Returns why qv_marks refuses the transcript, which is passed as to it, where
 * size bytes of places are lent: QV_LENGTH for more than 65,536 bytes of text,
 * QV_ENCODING, or QV_LENGTH for fewer places than marks, in this order; 0 where
 * it does not refuse. Every size may be given.
 *
 *     qv_marks_refusal((const uint8_t *)"[[easter 1225 J]]", 17, 20) == 0
 *     qv_marks_refusal((const uint8_t *)"[[easter 1225 J]]", 17, 19) == QV_LENGTH
 *     qv_marks_refusal((const uint8_t *)"[[easter 1225 J]]\xff", 18, 19) == QV_ENCODING
 */
uint32_t qv_marks_refusal(const uint8_t *text, size_t length,
                          size_t size);

#ifdef __cplusplus
}
#endif

#endif
