/*
 * Document 02, No. 5, beside what the meaning says of times. For a sheet with a last line that has a plan:
 * - each cap is a weight for which no landing of its line is later than allowed, and 1 more is none;
 * - times that all lines make with weights no greater than their caps are tightest and in time; with a weight above its cap they are tightest
 *   and late; and times that are tightest and in time are made with no such weight;
 * - without its last line the sheet has the same plan and the same kept table, but for the caps, and times that were late are tightest;
 * - with another last line, or with none, the same timings are tightest.
 */
#include "last.h"

#include <string.h>

#include "meaning.h"
#include "pairs.h"
#include "planned.h"
#include "related.h"
#include "spares.h"
#include "tuzhelar.h"
#include "writer.h"

#define CAP_DOWN (2 * LIMIT) /* no cap is further below 0 */
#define CAP_UP (50 * LIMIT)  /* or above it */

struct met_last met_last;

struct tables without_last(const struct tables *tables)
{
    struct tables open = *tables;
    int i;
    for (i = 0; i < MOST; i++) {
        open.last[i] = NONE;
    }
    return open;
}

struct tables floors_only(const struct tables *tables)
{
    struct tables fewer = *tables;
    int i;
    for (i = 0; i < tables->panels; i++) {
        fewer.last[i] = has_floor(tables, i) ? tables->last[i] : LIMIT;
    }
    return fewer;
}

static uint32_t test_text(const struct text *text, const struct tables *tables, const int64_t *times)
{
    return tuzhelar_test(text->bytes, text->length, times, (size_t)tables->triggers);
}

/* ---- The caps */

/* Whether no landing of a line with this weight is later than allowed. */
static int is_allowed(const struct tables *tables, const int32_t *line, int64_t weight)
{
    int64_t times[MOST];
    clear_times(times);
    lift(times, line, weight);
    return in_time(tables, times);
}

static void check_caps(const struct tables *tables, const struct list *list)
{
    struct tables fewer = floors_only(tables);
    size_t i;
    for (i = 0; i < list->count; i++) {
        const int32_t *line = line_at(list, i);
        int64_t cap = cap_at(list, i);
        expect(cap >= -CAP_DOWN && cap <= CAP_UP, "a cap is larger than there can be");
        expect(is_allowed(tables, line, cap), "a landing of a line with its cap is later than allowed");
        expect(!is_allowed(tables, line, cap + 1), "a cap is not the largest weight that is allowed");
        met_last.caps++;
        met_last.below_0 += cap < 0;
        met_last.no_floor += is_allowed(&fewer, line, cap + 1);
    }
}

/* ---- What they make */

static int is_tightest(const struct tables *tables, const int64_t *times, int64_t least)
{
    return keeps_order(tables, times) && deviation(tables, times) == least;
}

/* Times that are tightest and in time: the largest weights with which the lines stay below them make them, and none is above its cap. */
static void check_made(const struct tables *tables, const struct list *list, const int64_t *times)
{
    int64_t made[MOST];
    size_t i;
    int j;
    clear_times(made);
    for (i = 0; i < list->count; i++) {
        const int32_t *line = line_at(list, i);
        int64_t weight = INT64_MAX;
        for (j = 0; j < tables->triggers; j++) {
            if (line[1 + j] != TUZHELAR_ABSENT && times[j] - line[1 + j] < weight) {
                weight = times[j] - line[1 + j];
            }
        }
        expect(weight <= cap_at(list, i), "times are in time that a line with more than its cap is no later than");
        lift(made, line, weight);
    }
    for (j = 0; j < tables->triggers; j++) {
        expect(is_spare(tables, j) || made[j] == times[j], "tightest times in time are not what the lines make");
    }
}

/* Times with weights that are no greater than the caps, and some times beside them. */
static void check_within(struct random *random, const struct text *text, const struct tables *tables, const struct list *list, int64_t least,
                         int64_t *times)
{
    int64_t reach = chance(random, 40) ? 0 : chance(random, 50) ? 3 : 300000, beside[MOST];
    size_t i;
    clear_times(times);
    for (i = 0; i < list->count; i++) {
        lift(times, line_at(list, i), cap_at(list, i) - between(random, 0, reach));
    }
    fill_spares(random, tables, times);
    expect(is_tightest(tables, times, least) && in_time(tables, times), "times within the caps are late, or not tightest, by the meaning");
    expect(test_text(text, tables, times) == TUZHELAR_YES, "times within the caps are late, or not tightest, by the test");
    check_made(tables, list, times);
    memcpy(beside, times, sizeof beside);
    beside[below(random, tables->triggers)] += between(random, -2, 2);
    fill_spares(random, tables, beside);
    if (test_text(text, tables, beside) == TUZHELAR_YES) {
        check_made(tables, list, beside);
        met_last.in_time++;
    }
}

/* The same times and one line with a weight above its cap. Without a last line nothing is late. */
static void check_above(struct random *random, const struct text *text, const struct text *open, const struct tables *tables,
                        const struct list *list, int64_t least, int64_t *times)
{
    size_t i = (size_t)below(random, (int)list->count);
    lift(times, line_at(list, i), cap_at(list, i) + (chance(random, 70) ? 1 : between(random, 1, 300000)));
    expect(is_tightest(tables, times, least), "times above a cap are not tightest by the meaning");
    expect(!in_time(tables, times), "times above a cap are in time by the meaning");
    expect(test_text(text, tables, times) == TUZHELAR_NO, "times above a cap are in time by the test");
    expect(test_text(open, tables, times) == TUZHELAR_YES, "times above a cap are not tightest by the test without the last line");
    met_last.late++;
}

/* ---- Without the last line, and with another */

static void check_without(const struct text *text, const struct text *open, const struct tables *tables)
{
    static struct planned whole, fewer;
    struct tables open_tables = without_last(tables);
    struct list list, open_list;
    plan_text(&whole, text);
    plan_text(&fewer, open);
    list = planned_list(&whole, tables);
    open_list = planned_list(&fewer, &open_tables);
    expect(fewer.number == whole.number, "without its last line a sheet is refused, or with it");
    expect(memcmp(fewer.answer, whole.answer, 5 * sizeof *fewer.answer) == 0,
           "without its last line a sheet has another deviation, or other steps, selections, count or spare triggers");
    expect(whole.answer[5] == TUZHELAR_CAPPED_WORDS && fewer.answer[5] == TUZHELAR_LINE_WORDS,
           "a line takes not eight words with a last line, or not seven without");
    expect(same_lines(&list, &open_list), "without its last line a sheet has other lines");
    expect(memcmp(fewer.kept, whole.kept, sizeof fewer.kept) == 0, "without its last line a sheet has another kept table");
}

static void check_other(struct random *random, const struct text *text, const struct tables *tables)
{
    static struct text other_text;
    struct tables other = *tables;
    change_last(random, &other);
    write_tables(&other, chance(random, 50), &other_text);
    if (chance(random, 50)) {
        check_pair(random, text, &other_text, 1);
    } else {
        check_pair(random, &other_text, text, 1);
    }
}

static void note_sheet(const struct tables *tables)
{
    met_last.sheets++;
    met_last.land += has_land_rule(tables) != 0;
    met_last.spare += spares(tables) != 0;
}

void check_last(struct random *random, const struct text *text, const struct tables *tables, const struct list *list, int64_t least)
{
    static struct text open;
    struct tables open_tables = without_last(tables);
    int64_t times[MOST];
    if (!has_last(tables)) {
        return;
    }
    write_tables(&open_tables, chance(random, 50), &open);
    note_sheet(tables);
    check_caps(tables, list);
    check_without(text, &open, tables);
    check_within(random, text, tables, list, least, times);
    check_above(random, text, &open, tables, list, least, times);
    check_other(random, text, tables);
}
