/*
 * Document 02, No. 7, beside what the meaning says of times: "under rule 2 ... every floor counts as 0 and due j as minus the largest lag of
 * trigger j". A sheet under rule 2 and the sheet with these marks, in which a spare trigger is due at 0,
 * - have the same numbers, list, caps and kept table, and the deviation, a spread, is not below 0;
 * - give the same answers for times that are tested, and the same latest times;
 * - compare as sheets on which the same timings are tightest.
 * With the rule line at any other place, once more, with another value or taken away the one is refused as 2, and with any such line before its
 * marks the other.
 */
#include "rule.h"

#include <string.h>

#include "meaning.h"
#include "pairs.h"
#include "planned.h"
#include "spares.h"
#include "tuzhelar.h"
#include "writer.h"

#define WISHES 2 /* times given for each sheet */

struct met_rule met_rule;

static const char RULE_LINE[] = "rule=2\n";

/* Minus the largest lag of a trigger; 0 for one without a lag. */
static int64_t due_by_lags(const struct tables *tables, int trigger)
{
    int64_t largest = NONE;
    int i;
    for (i = 0; i < tables->panels; i++) {
        largest = tables->lag[i][trigger] > largest ? tables->lag[i][trigger] : largest;
    }
    return largest == NONE ? 0 : -largest;
}

struct tables by_marks(const struct tables *tables)
{
    struct tables marked = *tables;
    int i, j;
    marked.rule = 1;
    for (i = 0; i < tables->panels; i++) {
        marked.floor[i] = 0;
    }
    for (j = 0; j < tables->triggers; j++) {
        marked.due[j] = due_by_lags(tables, j);
    }
    return marked;
}

/* ---- The same sheet with marks */

static void check_plan(const struct text *text, const struct text *marked)
{
    static struct planned spread, marks;
    plan_text(&spread, text);
    plan_text(&marks, marked);
    expect(memcmp(&spread, &marks, sizeof spread) == 0, "under rule 2 a sheet has another plan or kept table than with the marks that say the same");
    expect(spread.number != TUZHELAR_DONE || spread.answer[0] >= 0, "a spread of landings is below 0");
    met_rule.no_order += spread.number == TUZHELAR_ORDER;
    met_rule.even += spread.number == TUZHELAR_DONE && spread.answer[0] == 0;
}

static uint32_t test_text(const struct text *text, const int64_t *times, int triggers)
{
    return tuzhelar_test(text->bytes, text->length, times, (size_t)triggers);
}

/* What asking for the latest times gives. What was not written is 0, so that the bytes of two of these can be compared. */
struct reached {
    int64_t number, answer[TUZHELAR_LATEST_WORDS];
    int32_t space[PLANNED_WORDS];
};

static void reach_text(struct reached *reached, const struct text *text, const int64_t *times, int triggers)
{
    memset(reached, 0, sizeof *reached);
    reached->number = tuzhelar_latest(text->bytes, text->length, times, (size_t)triggers, reached->space, PLANNED_WORDS, reached->answer,
                                      TUZHELAR_LATEST_WORDS);
}

/* Times that are drawn, and those that are found for them. */
static void check_times(struct random *random, const struct text *text, const struct text *marked, const struct tables *tables)
{
    static struct reached spread, marks;
    int64_t times[MOST], reach = chance(random, 70) ? 9 : 300000;
    int n = tables->triggers, j;
    for (j = 0; j < n; j++) {
        times[j] = between(random, -reach, reach);
    }
    fill_spares(random, tables, times);
    reach_text(&spread, text, times, n);
    reach_text(&marks, marked, times, n);
    expect(memcmp(&spread, &marks, sizeof spread) == 0, "under rule 2 the latest times are others than with the marks that say the same");
    expect(test_text(text, times, n) == test_text(marked, times, n), "under rule 2 times are tested otherwise than with the marks that say the same");
    memcpy(times, spread.answer + 1, sizeof times);
    expect(test_text(text, times, n) == test_text(marked, times, n), "under rule 2 the latest times are tested otherwise than with marks");
}

static void check_same(struct random *random, const struct text *text, const struct text *marked)
{
    if (chance(random, 50)) {
        check_pair(random, text, marked, 1);
    } else {
        check_pair(random, marked, text, 1);
    }
}

/* ---- The rule line */

/* Whether a sheet with a line put in at a place is refused as 2. */
static int is_wrong_with(const char *line, const uint8_t *bytes, size_t length, size_t at)
{
    uint8_t longer[ROOM];
    size_t more = strlen(line);
    int64_t none = 0;
    memcpy(longer, bytes, at);
    memcpy(longer + at, line, more);
    memcpy(longer + at + more, bytes + at, length - at);
    return tuzhelar_kept(longer, length + more, &none, 0) == TUZHELAR_FORM;
}

/* The rule line that is right, before marks and behind other lines. */
static void check_places(const struct text *text, const struct text *marked)
{
    size_t rule = strlen(RULE_LINE), length = text->length - rule, at;
    const uint8_t *rest = text->bytes + rule;
    expect(is_wrong_with("", rest, length, 0), "without its rule line a sheet without marks is not 2");
    expect(is_wrong_with(RULE_LINE, marked->bytes, marked->length, 0), "a rule line before a sheet with marks is not 2");
    expect(is_wrong_with(RULE_LINE, text->bytes, text->length, 0), "a second rule line is not 2");
    for (at = 1; at <= length; at++) {
        if (rest[at - 1] == '\n') {
            expect(is_wrong_with(RULE_LINE, rest, length, at), "a rule line that is not the first line is not 2");
            expect(is_wrong_with(RULE_LINE, text->bytes, text->length, rule + at), "another rule line behind the first is not 2");
        }
    }
}

/* One that is not, before marks and where the right one was. */
static void check_values(const struct text *text, const struct text *marked)
{
    static const char *const WRONG[] = {"rule=1\n", "rule=3\n", "rule=02\n", "rule=-2\n", "rule=-\n",    "rule=\n", "rule=2,2\n",
                                        "rule=2",   "rule=2 ",  "rule=+2\n", "rule= 2\n", "rule=2\r\n", "rule",    "rule=22\n"};
    size_t rule = strlen(RULE_LINE), i;
    for (i = 0; i < sizeof WRONG / sizeof WRONG[0]; i++) {
        expect(is_wrong_with(WRONG[i], text->bytes + rule, text->length - rule, 0), "under a rule line that is wrong a sheet is not 2");
        expect(is_wrong_with(WRONG[i], marked->bytes, marked->length, 0), "a rule line that is wrong before a sheet with marks is not 2");
    }
}

/* ---- What was met */

static void note_sheet(const struct tables *tables)
{
    met_rule.sheets++;
    met_rule.land += has_land_rule(tables) != 0;
    met_rule.last += has_last(tables) != 0;
    met_rule.spare += spares(tables) != 0;
}

/* Triggers that are not spare and have no lag, where they have one entry. */
static void note_entries(const struct tables *tables)
{
    int j;
    for (j = 0; j < tables->triggers; j++) {
        enum only_entry only = only_entry(tables, j);
        met_rule.diagonal += only == ON_DIAGONAL;
        met_rule.row += only == IN_ROW;
        met_rule.column += only == IN_COLUMN;
        met_rule.land_row += only == IN_LAND;
    }
}

void note_lagless(const struct tables *tables, uint32_t refusal)
{
    if (refusal == TUZHELAR_NO_LAG) {
        met_rule.lagless_panel += by_spread(tables) && has_lagless(tables);
    }
    if (refusal == TUZHELAR_NO_TRIGGER_LAG) {
        note_entries(tables);
        met_rule.lagless_no_order += circle_above_0(tables) != 0;
    }
}

void check_rule(struct random *random, const struct text *text, const struct tables *tables)
{
    static struct text marked_text;
    struct tables marked = by_marks(tables);
    int wishes;
    if (!by_spread(tables)) {
        return;
    }
    write_tables(&marked, chance(random, 50), &marked_text);
    note_sheet(tables);
    check_plan(text, &marked_text);
    for (wishes = 0; wishes < WISHES; wishes++) {
        check_times(random, text, &marked_text, tables);
    }
    check_same(random, text, &marked_text);
    check_places(text, &marked_text);
    check_values(text, &marked_text);
}
