/* Wrong planners that are wrong about rule 2 and about what it refuses. */
#include "wrong.h"

#include <string.h>

#include "land.h"
#include "last.h"
#include "meaning.h"
#include "rule.h"
#include "spares.h"

static const char RULE_LINE[] = "rule=2\n";

/* ---- Sheets that are accepted and should be 2 */

static int begins(const uint8_t *sheet, size_t length, const char *with)
{
    size_t bytes = strlen(with);
    return length >= bytes && memcmp(sheet, with, bytes) == 0;
}

/* The rule line, and bytes behind it. Returns the length. */
static size_t put_rule(uint8_t *copy, const uint8_t *rest, size_t length)
{
    size_t rule = strlen(RULE_LINE);
    memcpy(copy, RULE_LINE, rule);
    memcpy(copy + rule, rest, length);
    return rule + length;
}

/* A sheet without its first line of a key, where it has one. Returns the length. */
static size_t without_key(uint8_t *sheet, size_t length, const char *key)
{
    size_t at = before_key(sheet, length, key), end = line_end(sheet, length, at);
    memmove(sheet + at, sheet + end, length - end);
    return length - (end - at);
}

/* The rule line brought to the front from another place. Returns the length, or 0 where there is none to bring. */
static size_t rule_in_front(uint8_t *copy, const uint8_t *sheet, size_t length)
{
    size_t rule = strlen(RULE_LINE), at = before_key(sheet, length, RULE_LINE);
    if (at == length) {
        return 0;
    }
    put_rule(copy, sheet, at);
    memcpy(copy + rule + at, sheet + at + rule, length - at - rule);
    return length;
}

/* The sheet that one is taken for by its rule line, or for the lack of it. Returns its length, or 0. */
static size_t taken_for(uint8_t *copy, const uint8_t *sheet, size_t length)
{
    size_t end = line_end(sheet, length, 0), no_end = strlen("rule=2");
    int ruled = begins(sheet, length, RULE_LINE);
    if ((fault(140) && begins(sheet, length, "rule=1\n")) || (fault(146) && ruled)) {
        memcpy(copy, sheet + end, length - end); /* the old rule by its number; a rule line before marks that counts for nothing */
        return length - end;
    }
    if (fault(141) && begins(sheet, length, "rule=")) {
        return put_rule(copy, sheet + end, length - end); /* any value is 2 */
    }
    if (fault(142)) {
        return rule_in_front(copy, sheet, length); /* a rule line elsewhere, such as between the sizes */
    }
    if (fault(143) && begins(sheet, length, "rule=2\nrule=2\n")) {
        return put_rule(copy, sheet + 2 * end, length - 2 * end); /* one more */
    }
    if (fault(144) && ruled) {
        memcpy(copy, sheet, length); /* floor and due lines that count for nothing */
        return without_key(copy, without_key(copy, length, "floor="), "due=");
    }
    if (fault(145) && begins(sheet, length, "panels=")) {
        return put_rule(copy, sheet, length); /* rule 2 by the lack of marks */
    }
    if (fault(147) && begins(sheet, length, "rule=2") && !ruled) {
        return put_rule(copy, sheet + no_end, length - no_end); /* no line end */
    }
    return 0;
}

/* ---- Sheets that are accepted and should be 14 */

/* The same tables without entries of one kind for triggers that have no lag: in the column, in the row or of the land lines. */
static struct tables overlooked(const struct tables *tables, int column, int row, int land)
{
    struct tables fewer = *tables;
    int i, j;
    for (j = 0; j < tables->triggers; j++) {
        for (i = 0; is_lagless(tables, j) && i < MOST; i++) {
            fewer.after[i][j] = column && i != j ? NONE : fewer.after[i][j];
            fewer.after[j][i] = row ? NONE : fewer.after[j][i];
            fewer.land[j][i] = land ? NONE : fewer.land[j][i];
        }
    }
    return fewer;
}

/* What a sheet that is refused as 14 is taken for. */
static struct tables with_lagless(const struct tables *tables)
{
    if (fault(148)) {
        return by_marks(tables); /* a trigger without a lag is due at 0 */
    }
    return overlooked(tables, fault(149), fault(150), fault(151)); /* it is spare: one kind of entry is not looked at */
}

/* ---- Good sheets whose marks are wrong */

static int64_t largest_of_panel(const struct tables *tables, int panel)
{
    int64_t largest = NONE;
    int j;
    for (j = 0; panel < tables->panels && j < tables->triggers; j++) {
        largest = tables->lag[panel][j] > largest ? tables->lag[panel][j] : largest;
    }
    return largest;
}

static int64_t smallest_of_trigger(const struct tables *tables, int trigger)
{
    int64_t smallest = NONE;
    int i;
    for (i = 0; i < tables->panels; i++) {
        int64_t lag = tables->lag[i][trigger];
        smallest = lag != NONE && (smallest == NONE || lag < smallest) ? lag : smallest;
    }
    return smallest;
}

/* Minus a lag, and 0 where it is absent. */
static int64_t due_by(int64_t lag)
{
    return lag == NONE ? 0 : -lag;
}

/* The due mark of a trigger. `own` is the fault of the function that asks. */
static int64_t wrong_mark(const struct tables *tables, int own, int trigger, int64_t due)
{
    if (fault(own)) {
        return 0; /* not by the lags */
    }
    if (fault(152)) {
        return due_by(smallest_of_trigger(tables, trigger)); /* by the smallest */
    }
    if (fault(153)) {
        return due_by(largest_of_panel(tables, trigger)); /* by a panel's largest */
    }
    if (fault(154)) {
        return -due; /* plus the largest */
    }
    if (fault(155)) {
        return due_by(tables->lag[0][trigger]); /* by the first panel alone */
    }
    return due;
}

/* A good sheet under rule 2 with wrong marks. */
static struct tables with_wrong_marks(const struct tables *tables, int own)
{
    struct tables marked = by_marks(tables);
    int i, j;
    for (j = 0; j < tables->triggers; j++) {
        marked.due[j] = wrong_mark(tables, own, j, marked.due[j]);
    }
    for (i = 1; fault(156) && i < tables->panels; i++) {
        marked.floor[i] = NONE; /* a floor for the first panel alone */
    }
    return marked;
}

/* What a good sheet under rule 2 is taken for. */
static struct tables under_rule_2(const struct tables *tables, int own)
{
    struct tables marked = by_marks(tables);
    if (fault(157)) {
        return all_in_use(&marked); /* a spare trigger's column counts: it is due at 0 */
    }
    if (fault(158)) {
        return without_last(tables); /* no last line there */
    }
    if (fault(159)) {
        return without_land(tables); /* no land lines there */
    }
    return with_wrong_marks(tables, own);
}

/* What a good sheet with marks is taken for. */
static struct tables under_marks(const struct tables *tables)
{
    struct tables more = *tables;
    int i;
    for (i = 0; fault(160) && i < tables->panels; i++) {
        more.floor[i] = has_floor(tables, i) ? tables->floor[i] : 0; /* an absent floor counts as 0 */
    }
    return more;
}

/* ---- What is read in the place of a sheet */

/* Whether the fault that is named is one of those from a number to another. */
static int is_between(int first, int last)
{
    int number;
    for (number = first; number <= last; number++) {
        if (fault(number)) {
            return 1;
        }
    }
    return 0;
}

const uint8_t *misread_rule(int own, uint8_t *copy, const uint8_t *sheet, size_t *length)
{
    struct tables tables;
    size_t taken = 0;
    if (*length + strlen(RULE_LINE) > TUZHELAR_SHEET_BYTES) {
        return sheet; /* no good one, and no room for a line more */
    }
    if (is_between(140, 147)) {
        taken = taken_for(copy, sheet, *length);
        taken = taken > 0 && is_good(copy, taken) ? taken : 0;
    } else if (is_between(148, 151) && read_tables(sheet, *length, &tables) == TUZHELAR_NO_TRIGGER_LAG) {
        tables = with_lagless(&tables);
        taken = write_copy(copy, &tables);
    } else if ((is_between(152, 160) || fault(own)) && read_tables(sheet, *length, &tables) == TUZHELAR_DONE) {
        tables = by_spread(&tables) ? under_rule_2(&tables, own) : under_marks(&tables);
        taken = write_copy(copy, &tables);
    }
    *length = taken > 0 ? taken : *length;
    return taken > 0 ? copy : sheet;
}

/* ---- Refusals */

/* Faults of the refusal of a sheet that was read to its end: what the reader says of it, and its tables. */
static uint32_t reading_whole(const struct tables *tables, uint32_t refusal, uint32_t number)
{
    if (fault(139) && refusal == TUZHELAR_DONE && by_spread(tables)) {
        return TUZHELAR_FORM; /* a wrong key, as before there was such a line */
    }
    if (fault(166) && refusal == TUZHELAR_DONE && by_spread(tables) && spares(tables) != 0) {
        return TUZHELAR_NO_TRIGGER_LAG; /* 14 for a spare trigger */
    }
    if (fault(167) && refusal == TUZHELAR_NO_LAG && by_spread(tables) && has_lagless(tables)) {
        return TUZHELAR_NO_TRIGGER_LAG; /* 14 before 6 */
    }
    if (fault(168) && refusal == TUZHELAR_NO_TRIGGER_LAG && circle_above_0(tables)) {
        return TUZHELAR_ORDER; /* 14 after 8 */
    }
    if (fault(169) && refusal == TUZHELAR_DONE && has_lagless(tables)) {
        return TUZHELAR_NO_TRIGGER_LAG; /* 14 with marks too */
    }
    if (fault(170) && refusal == TUZHELAR_NO_TRIGGER_LAG) {
        return TUZHELAR_NO_LAG; /* 6 for a trigger too */
    }
    return number;
}

uint32_t reading_rule(const uint8_t *sheet, size_t length, uint32_t number)
{
    struct tables tables;
    size_t last = before_key(sheet, length, "last=");
    if (!fault(139) && !is_between(166, 171)) {
        return number;
    }
    if (fault(171) && last < length && read_tables(sheet, last, &tables) == TUZHELAR_NO_TRIGGER_LAG) {
        return TUZHELAR_NO_TRIGGER_LAG; /* 14 before the last line's faults */
    }
    return reading_whole(&tables, read_tables(sheet, length, &tables), number);
}

uint32_t times_rule(const uint8_t *sheet, size_t length, size_t times_length, uint32_t number)
{
    struct tables tables;
    if (fault(172) && read_tables(sheet, length, &tables) == TUZHELAR_NO_TRIGGER_LAG && times_length != (size_t)tables.triggers) {
        return TUZHELAR_COMPONENTS; /* 10 before 14 */
    }
    return number;
}

/* ---- Comparing */

uint32_t same_rule(const uint8_t *first, size_t first_length, const uint8_t *second, size_t second_length, uint32_t number)
{
    int rules = begins(first, first_length, RULE_LINE) != begins(second, second_length, RULE_LINE);
    if (fault(173) && rules && number == TUZHELAR_SAME) {
        return TUZHELAR_UNLIKE; /* only sheets that follow the same rule */
    }
    if (fault(174) && rules && number == TUZHELAR_SAME) {
        return TUZHELAR_DIFFERENT; /* other rules, other timings */
    }
    if (fault(175) && number == TUZHELAR_SECOND + TUZHELAR_NO_TRIGGER_LAG) {
        return TUZHELAR_NO_TRIGGER_LAG; /* as if it were the first sheet's */
    }
    return number;
}
