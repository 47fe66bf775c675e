/*
 * Wrong planners, to see that the test sees them: linked with --wrap, each call goes to the library and comes back with one fault, which
 * the variable WRONG names by its number. `run` tries each.
 */
#include "wrong.h"

#include <stdlib.h>
#include <string.h>

#include "list.h"
#include "meaning.h"
#include "rule.h"
#include "spares.h"
#include "writer.h"

uint32_t __wrap_tuzhelar_plan(const uint8_t *sheet, size_t sheet_length, int32_t *space, size_t space_length, int64_t *answer,
                              size_t answer_length);
uint32_t __wrap_tuzhelar_kept(const uint8_t *sheet, size_t sheet_length, int64_t *answer, size_t answer_length);
uint32_t __wrap_tuzhelar_test(const uint8_t *sheet, size_t sheet_length, const int64_t *times, size_t times_length);
uint32_t __wrap_tuzhelar_latest(const uint8_t *sheet, size_t sheet_length, const int64_t *times, size_t times_length, int32_t *space,
                                size_t space_length, int64_t *answer, size_t answer_length);
uint32_t __wrap_tuzhelar_same(const uint8_t *first, size_t first_length, const uint8_t *second, size_t second_length, int32_t *left,
                              size_t left_length, int32_t *right, size_t right_length, int64_t *answer, size_t answer_length);

static volatile uint8_t read_byte;

/*
 * Reads a byte of a sheet that may not be read. The library is compiled without the sanitizer, and so is this: else the run would end where a
 * sheet does not lie in guarded memory, before it can say which one it is.
 */
__attribute__((no_sanitize_address)) static void touch(const uint8_t *byte)
{
    read_byte = *byte;
}

int fault(int number)
{
    static int named;
    const char *value;
    if (named == 0) {
        value = getenv("WRONG");
        named = value == NULL ? 0 : atoi(value);
        if (named < 1 || named > FAULTS) {
            exit(2);
        }
    }
    return named == number;
}

/* ---- Sheets */

size_t before_key(const uint8_t *sheet, size_t length, const char *key)
{
    size_t key_length = strlen(key), at;
    for (at = 1; at + key_length <= length; at++) {
        if (sheet[at - 1] == '\n' && memcmp(sheet + at, key, key_length) == 0) {
            return at;
        }
    }
    return length;
}

size_t line_end(const uint8_t *sheet, size_t length, size_t at)
{
    while (at < length && sheet[at] != '\n') {
        at++;
    }
    return at < length ? at + 1 : length;
}

int is_good(const uint8_t *sheet, size_t length)
{
    int64_t none = 0;
    uint32_t number = __real_tuzhelar_kept(sheet, length, &none, 0);
    return number == TUZHELAR_DONE || number == TUZHELAR_ORDER;
}

size_t write_copy(uint8_t *copy, const struct tables *tables)
{
    struct text text;
    write_tables(tables, 0, &text);
    memcpy(copy, text.bytes, text.length);
    return text.length;
}

/* ---- Land lines */

/* A copy of a good sheet without its land rules, but for those of the first so many panels. Returns its length. */
static size_t forget_land(uint8_t *copy, const uint8_t *sheet, size_t length, int first)
{
    struct tables tables;
    int i, j;
    read_tables(sheet, length, &tables);
    for (i = 0; i < MOST; i++) {
        for (j = first; j < MOST; j++) {
            tables.land[i][j] = NONE;
        }
    }
    return write_copy(copy, &tables);
}

/* Land times lag over triggers and not over panels. */
static size_t forget_panels(uint8_t *copy, const uint8_t *sheet, size_t length)
{
    struct tables tables;
    read_tables(sheet, length, &tables);
    return forget_land(copy, sheet, length, tables.triggers);
}

/* ---- Spare triggers */

/* Those of a sheet, bit 0 for trigger 1; none of one that is refused. */
static int spares_of(const uint8_t *sheet, size_t length)
{
    struct tables tables;
    return read_tables(sheet, length, &tables) == 0 ? spares(&tables) : 0;
}

/* A copy of a good sheet in which no trigger is spare. Under rule 2 such a one would be refused: it has marks. Returns its length. */
static size_t use_all(uint8_t *copy, const uint8_t *sheet, size_t length)
{
    struct tables tables;
    read_tables(sheet, length, &tables);
    tables = by_spread(&tables) ? by_marks(&tables) : tables;
    tables = all_in_use(&tables);
    return write_copy(copy, &tables);
}

/* The triggers that are spare where one kind of entry is not looked at: in the column, on the diagonal, in the row, or of the land lines. */
static int overlooking(const struct tables *tables, int kind)
{
    int byte = 0, i, j;
    for (j = 0; j < tables->triggers; j++) {
        struct tables fewer = *tables;
        for (i = 0; i < MOST; i++) {
            fewer.after[i][j] = kind == 0 && i != j ? NONE : fewer.after[i][j];
            fewer.after[j][i] = (kind == 1 && i == j) || (kind == 2 && i != j) ? NONE : fewer.after[j][i];
            fewer.land[j][i] = kind == 3 ? NONE : fewer.land[j][i];
        }
        byte |= is_spare(&fewer, j) << j;
    }
    return byte;
}

/* A copy of a good sheet without the after entries in the columns of triggers that have no others. Returns its length. */
static size_t forget_columns(uint8_t *copy, const uint8_t *sheet, size_t length)
{
    struct tables tables;
    int byte, i, j;
    read_tables(sheet, length, &tables);
    byte = overlooking(&tables, 0);
    for (j = 0; j < tables.triggers; j++) {
        for (i = 0; i < MOST; i++) {
            tables.after[i][j] = byte >> j & 1 ? NONE : tables.after[i][j];
        }
    }
    return write_copy(copy, &tables);
}

/* The spare triggers that planning gives. */
static int wrong_byte(const uint8_t *sheet, size_t length, int byte)
{
    struct tables tables;
    int kind;
    read_tables(sheet, length, &tables);
    for (kind = 0; kind < 4; kind++) {
        if (fault(60 + kind)) {
            return overlooking(&tables, kind);
        }
    }
    if (fault(64) && before_key(sheet, length, "land=") < length) {
        return 0; /* a land row of minus signs makes a trigger not spare */
    }
    if (fault(65)) {
        return (1 << tables.triggers) - 1 - byte; /* the others */
    }
    return byte;
}

/* Faults of the lines on a sheet with spare triggers. */
static void wrong_line(int spare, int32_t *line)
{
    int32_t packed[TUZHELAR_MOST];
    int count = 0, j;
    for (j = 0; j < line[0]; j++) {
        if (spare >> j & 1) {
            line[1 + j] = fault(77) ? 0 : line[1 + j]; /* a component for one that is spare */
        } else {
            packed[count++] = line[1 + j];
        }
    }
    for (j = 0; fault(69) && j < line[0]; j++) {
        line[1 + j] = j < count ? packed[j] : TUZHELAR_ABSENT; /* components moved together */
    }
    if (fault(68)) {
        line[0] = count; /* spare triggers not counted */
    }
}

/* Bits moved together over those of spare triggers. */
static int64_t packed_byte(int spare, int64_t byte)
{
    int64_t packed = 0;
    int count = 0, j;
    for (j = 0; j < TUZHELAR_MOST; j++) {
        if ((spare >> j & 1) == 0) {
            packed |= (byte >> j & 1) << count++;
        }
    }
    return packed;
}

/* Whether a sheet is good but for due marks of spare triggers that are absent. */
static int lacks_spare_due(const uint8_t *sheet, size_t length)
{
    uint8_t copy[TUZHELAR_SHEET_BYTES];
    size_t at = 0;
    int lacking = 0, j = 0;
    memcpy(copy, sheet, length);
    while (at + 5 < length && memcmp(sheet + at, "\ndue=", 5) != 0) {
        at++;
    }
    for (at += 5; at + 1 < length && sheet[at] != '\n'; at++) {
        if (sheet[at] == '-' && (sheet[at + 1] == ',' || sheet[at + 1] == '\n')) {
            copy[at] = '0';
            lacking |= 1 << j;
        }
        j += sheet[at] == ',';
    }
    return lacking != 0 && (lacking & ~spares_of(copy, length)) == 0;
}

/* ---- What is forgotten or misread of a sheet */

/*
 * The sheet that a function works on which forgets land rules, spare triggers or the last line, or misreads the rule: all functions do, or the
 * one whose own fault is named.
 */
static const uint8_t *worked_on(int own_land, int own_spares, int own_last, int own_rule, uint8_t *copy, const uint8_t *sheet, size_t *length)
{
    int known = fault(45) || fault(46) || fault(55) || fault(79) || fault(own_land) || fault(own_spares) || fault(own_last);
    if (!known || !is_good(sheet, *length)) {
        return misread_rule(own_rule, copy, sheet, length);
    }
    if (fault(own_last)) {
        *length = forget_last(copy, sheet, *length);
    } else if (fault(55) || fault(own_spares)) {
        *length = use_all(copy, sheet, *length);
    } else if (fault(79)) {
        *length = forget_columns(copy, sheet, *length);
    } else if (fault(46)) {
        *length = forget_panels(copy, sheet, *length);
    } else {
        *length = forget_land(copy, sheet, *length, 0);
    }
    return copy;
}

/* Faults of reading land lines. */
static uint32_t reading_land(const uint8_t *sheet, size_t length, uint32_t number)
{
    size_t front = before_key(sheet, length, "land=");
    int good_front = front < length && is_good(sheet, front);
    if (fault(52) && good_front) {
        return TUZHELAR_FORM; /* bytes left over, as before there were such lines */
    }
    if (fault(53) && good_front && number == TUZHELAR_RANGE) {
        return TUZHELAR_FORM; /* bytes left over where an entry is beyond the limit */
    }
    if (fault(54) && good_front && number == TUZHELAR_FORM) {
        return TUZHELAR_DONE; /* too few of them, or wrong ones, are none */
    }
    return number;
}

/* ---- The functions */

/* Faults of reading, in the functions on one sheet. */
static uint32_t reading(const uint8_t *sheet, size_t length, uint32_t number)
{
    if (fault(1) && length > 0) {
        touch(sheet + length); /* a byte past the end */
    }
    if (fault(2) && length > 0) {
        touch(sheet - 1); /* a byte before the start */
    }
    if (fault(3) && number == TUZHELAR_SIZE) {
        return TUZHELAR_FORM;
    }
    if (fault(4) && number == TUZHELAR_NO_DUE) {
        return TUZHELAR_RANGE;
    }
    if (fault(5) && number == TUZHELAR_NO_LAG) {
        return TUZHELAR_NO_FLOOR;
    }
    if (fault(6) && length == TUZHELAR_SHEET_BYTES) {
        return TUZHELAR_TOO_LONG;
    }
    if (fault(76) && number == TUZHELAR_NO_DUE && lacks_spare_due(sheet, length)) {
        return TUZHELAR_DONE; /* a spare trigger needs no due mark */
    }
    return reading_rule(sheet, length, reading_last(sheet, length, reading_land(sheet, length, number)));
}

/* How many words a line of a sheet takes. */
static size_t words_of(const uint8_t *sheet, size_t length)
{
    struct tables tables;
    read_tables(sheet, length, &tables);
    return line_words(&tables);
}

/* Faults of planning on a sheet with spare triggers, in its lines and its answer. */
static void plan_spares(const uint8_t *sheet, size_t length, uint32_t number, int32_t *space, int64_t *answer, size_t answer_length)
{
    int spare = spares_of(sheet, length);
    size_t wide = words_of(sheet, length), i;
    if (number == TUZHELAR_DONE && answer_length > 4 && !fault(55)) {
        answer[4] = wrong_byte(sheet, length, fault(56) || fault(79) ? spare : (int)answer[4]); /* these two are seen without it */
    }
    for (i = 0; spare != 0 && number == TUZHELAR_DONE && answer_length > 3 && i < (size_t)answer[3]; i++) {
        wrong_line(spare, space + wide * i);
    }
    if (fault(66) && number == TUZHELAR_SPACE && answer_length > 4) {
        answer[4] = spare; /* 9 gives more than the count */
    }
    if (fault(67) && number == TUZHELAR_ORDER && answer_length > 4) {
        answer[4] = 0;
    }
}

/* Faults of a list: two lines exchanged, or a component of the first one less. */
static void plan_lines(size_t wide, int32_t *space, int64_t count)
{
    size_t i;
    for (i = 0; fault(13) && count > 1 && i < wide; i++) {
        int32_t word = space[i];
        space[i] = space[i + wide];
        space[i + wide] = word;
    }
    for (i = 1; fault(14) && i <= (size_t)space[0]; i++) {
        if (space[i] != TUZHELAR_ABSENT && space[i] < 0) {
            space[i]--;
            break;
        }
    }
}

uint32_t __wrap_tuzhelar_plan(const uint8_t *sheet, size_t sheet_length, int32_t *space, size_t space_length, int64_t *answer,
                              size_t answer_length)
{
    uint8_t copy[TUZHELAR_SHEET_BYTES];
    size_t length = sheet_length, room = room_last(sheet, sheet_length, space_length), wide = words_of(sheet, sheet_length);
    const uint8_t *work = worked_on(47, 56, 0, 161, copy, sheet, &length);
    struct written written = {0, space, space_length, answer, answer_length, answer_length > 5 ? answer[5] : 0};
    uint32_t number = reading(sheet, sheet_length, __real_tuzhelar_plan(work, length, space, room, answer, answer_length));
    int done = number == TUZHELAR_DONE;
    if (fault(7) && done) {
        space[space_length] = 0; /* a word past the space */
    }
    if (fault(8) && number == TUZHELAR_SPACE && space_length > 0) {
        space[0] = 0; /* a refusal writes */
    }
    if (fault(9) && number == TUZHELAR_ORDER && answer_length > 0) {
        answer[0] = 0;
    }
    if (fault(10) && done && answer_length > TUZHELAR_PLAN_WORDS) {
        answer[TUZHELAR_PLAN_WORDS] = 0; /* a word too many */
    }
    if (fault(11) && done && answer_length > 3 && (size_t)answer[3] * wide == space_length) {
        return TUZHELAR_SPACE; /* full too early */
    }
    if (fault(12) && done && answer_length > 3 && answer[3] > 1) {
        answer[3]--; /* the last line lost */
    }
    if (done && answer_length > 3) {
        plan_lines(wide, space, answer[3]);
    }
    if (fault(15) && number == TUZHELAR_ORDER) {
        return TUZHELAR_DONE;
    }
    plan_spares(sheet, sheet_length, number, space, answer, answer_length);
    written.number = number;
    return plan_last(sheet, sheet_length, &written);
}

uint32_t __wrap_tuzhelar_kept(const uint8_t *sheet, size_t sheet_length, int64_t *answer, size_t answer_length)
{
    uint8_t copy[TUZHELAR_SHEET_BYTES];
    size_t length = sheet_length;
    const uint8_t *work = worked_on(48, 0, 0, 162, copy, sheet, &length);
    uint32_t number = reading(sheet, sheet_length, __real_tuzhelar_kept(work, length, answer, answer_length));
    size_t at;
    if (fault(16) && number == TUZHELAR_DONE && answer_length > 0) {
        answer[0]++; /* not the least deviation */
    }
    if (fault(17) && number == TUZHELAR_DONE && answer_length > 5) {
        answer[5]++; /* not the byte's count */
    }
    if (fault(18) && number == TUZHELAR_ORDER) {
        return TUZHELAR_DONE;
    }
    for (at = 4; fault(70) && number == TUZHELAR_DONE && at < answer_length && at < TUZHELAR_KEPT_WORDS; at += 2) {
        answer[at] = packed_byte(spares_of(sheet, sheet_length), answer[at]); /* kept bits moved together */
    }
    kept_last(sheet, sheet_length, number, answer, answer_length);
    return number;
}

/* Zeros in the place of times that are not lent. */
static uint32_t filled_up(const uint8_t *sheet, size_t sheet_length, const int64_t *times, size_t times_length)
{
    int64_t filled[TUZHELAR_MOST] = {0};
    uint32_t number = TUZHELAR_COMPONENTS;
    size_t i, length;
    for (i = 0; i < times_length; i++) {
        filled[i] = times[i];
    }
    for (length = times_length + 1; length <= TUZHELAR_MOST && number == TUZHELAR_COMPONENTS; length++) {
        number = __real_tuzhelar_test(sheet, sheet_length, filled, length);
    }
    return number;
}

/* Times of spare triggers that are not looked at, be they beyond the limit. */
static uint32_t without_spares_times(const uint8_t *sheet, size_t sheet_length, const int64_t *times, size_t times_length)
{
    int64_t others[TUZHELAR_MOST] = {0};
    size_t j;
    for (j = 0; j < times_length; j++) {
        others[j] = spares_of(sheet, sheet_length) >> j & 1 ? 0 : times[j];
    }
    return __real_tuzhelar_test(sheet, sheet_length, others, times_length);
}

uint32_t __wrap_tuzhelar_test(const uint8_t *sheet, size_t sheet_length, const int64_t *times, size_t times_length)
{
    uint8_t copy[TUZHELAR_SHEET_BYTES];
    size_t length = sheet_length;
    const uint8_t *work = worked_on(49, 57, 103, 163, copy, sheet, &length);
    uint32_t number = reading(sheet, sheet_length, __real_tuzhelar_test(work, length, times, times_length));
    if (fault(19) && number == TUZHELAR_NO) {
        return TUZHELAR_YES;
    }
    if (fault(20) && number == TUZHELAR_YES) {
        return TUZHELAR_NO;
    }
    if (fault(21) && number == TUZHELAR_TIME) {
        return TUZHELAR_COMPONENTS;
    }
    if (fault(22) && times_length <= TUZHELAR_MOST) {
        read_byte = (uint8_t)times[times_length]; /* a word past the times */
    }
    if (fault(23) && number == TUZHELAR_COMPONENTS && times_length < TUZHELAR_MOST) {
        return filled_up(sheet, sheet_length, times, times_length);
    }
    if (fault(24) && times_length > TUZHELAR_MOST) {
        read_byte = (uint8_t)times[0]; /* times that are too many are read */
    }
    if (fault(75) && number == TUZHELAR_TIME) {
        return without_spares_times(sheet, sheet_length, times, times_length);
    }
    number = times_rule(sheet, sheet_length, times_length, number);
    return test_last(sheet, sheet_length, times, times_length, number);
}

/* Faults of comparing sheets of which not the same triggers are spare. */
static uint32_t same_spares(uint32_t number, const int64_t *before, int32_t *left, int64_t *answer, size_t answer_length)
{
    size_t i;
    if (fault(73)) {
        return TUZHELAR_DIFFERENT; /* their lists compared */
    }
    for (i = 0; fault(74) && i < TUZHELAR_SAME_WORDS && i < answer_length; i++) {
        answer[i] = before[i]; /* not how much was written */
    }
    if (fault(78)) {
        left[0] = 0; /* no list */
    }
    return number;
}

uint32_t __wrap_tuzhelar_same(const uint8_t *first, size_t first_length, const uint8_t *second, size_t second_length, int32_t *left,
                              size_t left_length, int32_t *right, size_t right_length, int64_t *answer, size_t answer_length)
{
    uint8_t copy[TUZHELAR_SHEET_BYTES], other[TUZHELAR_SHEET_BYTES];
    size_t length = first_length, other_length = second_length;
    const uint8_t *work = worked_on(51, 59, 117, 165, copy, first, &length);
    const uint8_t *other_work = worked_on(51, 59, 117, 165, other, second, &other_length);
    struct written lefts = {0, left, left_length, answer, answer_length, 0}, rights = {0, right, right_length, answer, answer_length, 0};
    int64_t before[TUZHELAR_SAME_WORDS] = {0, 0, 0, 0};
    int32_t no_left = 0, no_right = 0;
    uint32_t number;
    int written;
    memcpy(before, answer, (answer_length < TUZHELAR_SAME_WORDS ? answer_length : TUZHELAR_SAME_WORDS) * sizeof *answer);
    number = __real_tuzhelar_same(work, length, other_work, other_length, left, left_length, right, right_length, answer, answer_length);
    number = same_rule(first, first_length, second, second_length, number);
    written = number >= TUZHELAR_SAME && number <= TUZHELAR_UNLIKE;
    if (fault(25) && number == TUZHELAR_DIFFERENT && answer_length > 1 && answer[0] == answer[1]) {
        return TUZHELAR_SAME; /* the counts alone compared */
    }
    if (fault(26) && number == TUZHELAR_SAME && (first_length != second_length)) {
        return TUZHELAR_DIFFERENT; /* the sheets compared and not what they mean */
    }
    if (fault(27) && number == TUZHELAR_UNLIKE) {
        return TUZHELAR_DIFFERENT;
    }
    if (fault(28) && number < TUZHELAR_SAME) { /* the second sheet's refusal first */
        uint32_t other = __real_tuzhelar_same(second, second_length, first, first_length, &no_right, 0, &no_left, 0, answer, 0);
        return other == TUZHELAR_SPACE ? number : TUZHELAR_SECOND + other;
    }
    if (fault(29) && number > TUZHELAR_SECOND && left_length > 0) {
        left[0] = 0; /* a refusal of the second sheet writes */
    }
    if (fault(30) && written && answer_length > 1) {
        int64_t count = answer[0]; /* the counts exchanged */
        answer[0] = answer[1];
        answer[1] = count;
    }
    if (fault(31) && number == TUZHELAR_SECOND + TUZHELAR_SPACE && answer_length > 1) {
        answer[0] = answer[1]; /* the count needed in the first sheet's place too */
    }
    if (fault(118) && written && answer_length > 3) {
        answer[2] = answer[3] = TUZHELAR_LINE_WORDS; /* seven words for every line */
    }
    if (fault(119) && number == TUZHELAR_SPACE && answer_length > 2) {
        answer[2] = before[2]; /* the count needed, and not of how many words */
    }
    if (fault(32) && written) {
        right[right_length] = 0; /* a word past the right space */
    }
    if (fault(33) && second_length > 0) {
        touch(second + second_length); /* a byte past the second sheet */
    }
    if (number == TUZHELAR_UNLIKE && left[0] == right[0]) { /* by the spare triggers alone */
        return same_spares(number, before, left, answer, answer_length);
    }
    if (written) {
        wrong_caps(first, first_length, left);
        wrong_caps(second, second_length, right);
    }
    lefts.number = rights.number = number;
    lefts.words = (int64_t)words_of(first, first_length);
    rights.words = (int64_t)words_of(second, second_length);
    return same_last(&lefts, &rights);
}

/* The latest of the times that are found for triggers that are not spare. */
static int64_t latest_of_others(int spare, size_t n, const int64_t *found)
{
    int64_t latest = INT64_MIN;
    size_t j;
    for (j = 0; j < n; j++) {
        latest = (spare >> j & 1) == 0 && found[j] > latest ? found[j] : latest;
    }
    return latest;
}

/* Faults of the latest times that were found. */
static void wrong_times(int spare, const int64_t *times, size_t n, size_t wide, int32_t *space, int64_t *answer)
{
    int64_t latest = latest_of_others(spare, n, answer + 1);
    size_t j;
    for (j = 0; j < n; j++) {
        if (fault(71) && (spare >> j & 1)) {
            answer[1 + j] = 0; /* a spare trigger's as an unused one */
        }
        if (fault(72) && (spare >> j & 1) && answer[1 + j] > latest) {
            answer[1 + j] = latest; /* a spare trigger's brought to the others */
        }
        if (fault(34)) {
            answer[1 + j] = times[j]; /* the times that were given */
        }
        if (fault(35)) {
            answer[1 + j]--; /* tightest, and not the latest */
        }
    }
    if (fault(36)) {
        answer[n]++; /* one time later */
    }
    if (fault(37) && n < TUZHELAR_MOST) {
        answer[1 + n] = 1; /* an unused one */
    }
    if (fault(38)) {
        answer[0]--; /* a line not counted */
    }
    if (fault(39)) {
        space[wide * (size_t)answer[0] - 1]++; /* another list than planning's */
    }
}

uint32_t __wrap_tuzhelar_latest(const uint8_t *sheet, size_t sheet_length, const int64_t *times, size_t times_length, int32_t *space,
                                size_t space_length, int64_t *answer, size_t answer_length)
{
    uint8_t copy[TUZHELAR_SHEET_BYTES];
    size_t length = sheet_length;
    const uint8_t *work = worked_on(50, 58, 0, 164, copy, sheet, &length);
    struct written written = {0, space, space_length, answer, answer_length, answer_length > 7 ? answer[7] : 0};
    uint32_t number = reading(sheet, sheet_length, __real_tuzhelar_latest(work, length, times, times_length, space, space_length, answer,
                                                                          answer_length));
    if (number == TUZHELAR_DONE && answer_length >= TUZHELAR_LATEST_WORDS) {
        wrong_times(spares_of(sheet, sheet_length), times, times_length, words_of(sheet, sheet_length), space, answer);
    }
    if (fault(40) && number == TUZHELAR_SPACE && answer_length > 1) {
        answer[1] = 0; /* 9 gives more than the count */
    }
    if (fault(41) && number == TUZHELAR_SPACE && space_length > 0) {
        space[0] = 0; /* 9 writes */
    }
    if (fault(42) && number == TUZHELAR_TIME && __real_tuzhelar_kept(sheet, sheet_length, answer, 0) == TUZHELAR_ORDER) {
        return TUZHELAR_ORDER; /* 8 before 11 */
    }
    if (fault(43) && number == TUZHELAR_COMPONENTS && space_length < TUZHELAR_LINE_WORDS) {
        return TUZHELAR_SPACE; /* 9 before 10 */
    }
    if (fault(44) && times_length > TUZHELAR_MOST) {
        read_byte = (uint8_t)times[0]; /* times that are too many are read */
    }
    written.number = number = times_rule(sheet, sheet_length, times_length, number);
    latest_last(sheet, sheet_length, times, times_length, &written);
    return number;
}
