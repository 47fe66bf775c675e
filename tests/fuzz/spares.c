/*
 * Document 02, No. 4, beside what the meaning says of times. A sheet with spare triggers is planned again
 * - with other due marks for them, where there are marks: nothing is other than before;
 * - without them: deviation, steps, selections and count are the same, and so are the lines, their caps and the kept triggers, each at its
 *   own place;
 * - with a rule x(j) >= x(j) for each of them, so that none is spare: deviation, steps, selections and the kept triggers are the same, and
 *   the list is what is left of that one without the lines that have a component for one of them. Under rule 2 such a sheet is refused, and
 *   this is said of the sheet with marks.
 */
#include "spares.h"

#include <string.h>

#include "meaning.h"
#include "pairs.h"
#include "planned.h"
#include "rule.h"

struct met_spares met_spares;

void fill_spares(struct random *random, const struct tables *tables, int64_t *times)
{
    const int64_t last = TUZHELAR_LAST_TIME;
    int j;
    for (j = 0; j < tables->triggers; j++) {
        if (is_spare(tables, j)) {
            int64_t anywhere[] = {last, -last, 0, 0, 0};
            anywhere[2] = between(random, -last, last);
            anywhere[3] = (by_spread(tables) ? 0 : tables->due[j]) + between(random, -3, 3);
            anywhere[4] = between(random, -3, 3);
            times[j] = anywhere[below(random, 5)];
        }
    }
}

struct tables all_in_use(const struct tables *tables)
{
    struct tables in_use = *tables;
    int j;
    for (j = 0; j < tables->triggers; j++) {
        in_use.after[j][j] = is_spare(tables, j) ? 0 : tables->after[j][j];
    }
    return in_use;
}

/* ---- Other due marks */

static void check_other_due(struct random *random, const struct tables *tables, const struct planned *planned)
{
    static struct planned again;
    struct tables other = *tables;
    int j;
    if (by_spread(tables)) {
        return;
    }
    for (j = 0; j < tables->triggers; j++) {
        other.due[j] = is_spare(tables, j) ? between(random, -LIMIT, LIMIT) : tables->due[j];
    }
    plan_tables(random, &again, &other);
    expect(memcmp(&again, planned, sizeof again) == 0, "another due mark of a spare trigger changes the plan or the kept table");
}

/* ---- Without the spare triggers */

/* The triggers that are not spare, in sheet order. Returns their number. */
static int places(const struct tables *tables, int *at)
{
    int count = 0, j;
    for (j = 0; j < tables->triggers; j++) {
        if (!is_spare(tables, j)) {
            at[count++] = j;
        }
    }
    return count;
}

static struct tables without_spares(const struct tables *tables)
{
    struct tables fewer = *tables;
    int at[MOST], i, j;
    fewer.triggers = places(tables, at);
    for (j = 0; j < fewer.triggers; j++) {
        fewer.due[j] = tables->due[at[j]];
        for (i = 0; i < tables->panels; i++) {
            fewer.lag[i][j] = tables->lag[i][at[j]];
            fewer.land[j][i] = tables->land[at[j]][i];
        }
        for (i = 0; i < fewer.triggers; i++) {
            fewer.after[i][j] = tables->after[at[i]][at[j]];
        }
    }
    return fewer;
}

/* A line, each component at its own trigger of the sheet. Its cap, if it has one, is not looked at. */
static int is_laid_out(const struct tables *tables, const int32_t *line, const int32_t *fewer)
{
    int at[MOST], count = places(tables, at), j, k = 0;
    int same = line[0] == tables->triggers && fewer[0] == count;
    for (j = 0; j < tables->triggers; j++) {
        int32_t component = k < count && at[k] == j ? fewer[1 + k++] : TUZHELAR_ABSENT;
        same = same && line[1 + j] == component;
    }
    return same;
}

/* A panel's kept triggers, each at its own bit. */
static int64_t laid_out_byte(const struct tables *tables, int64_t byte)
{
    int at[MOST], count = places(tables, at), k;
    int64_t laid = 0;
    for (k = 0; k < count; k++) {
        laid |= (byte >> k & 1) << at[k];
    }
    return laid;
}

static void check_without(struct random *random, const struct tables *tables, const struct planned *planned)
{
    static struct planned fewer;
    struct tables others = without_spares(tables);
    struct list list = planned_list(planned, tables), fewer_list;
    size_t line;
    int i;
    plan_tables(random, &fewer, &others);
    fewer_list = planned_list(&fewer, &others);
    expect(fewer.number == planned->number, "without its spare triggers a sheet is refused, or with them");
    expect(memcmp(fewer.answer, planned->answer, 4 * sizeof *fewer.answer) == 0,
           "without its spare triggers a sheet has another deviation, or other steps, selections or count");
    expect(fewer.answer[4] == 0, "without its spare triggers a sheet has one");
    for (line = 0; line < list.count; line++) {
        expect(is_laid_out(tables, line_at(&list, line), line_at(&fewer_list, line)),
               "a line is not that of the sheet without its spare triggers");
        expect(cap_at(&list, line) == cap_at(&fewer_list, line), "a cap is not that of the sheet without its spare triggers");
    }
    expect(memcmp(fewer.kept, planned->kept, 4 * sizeof *fewer.kept) == 0, "the kept table has other numbers without the spare triggers");
    for (i = 4; i < TUZHELAR_KEPT_WORDS; i += 2) {
        expect(planned->kept[i] == laid_out_byte(tables, fewer.kept[i]) && planned->kept[i + 1] == fewer.kept[i + 1],
               "a kept byte is not that of the sheet without its spare triggers");
    }
}

/* ---- Not spare */

static int has_one_of(int byte, const int32_t *line)
{
    int j;
    for (j = 0; j < MOST; j++) {
        if ((byte >> j & 1) != 0 && line[1 + j] != TUZHELAR_ABSENT) {
            return 1;
        }
    }
    return 0;
}

/* The lines of a larger list that have no component for a trigger of the byte are those of the list, with their caps. */
static int is_rest(const struct list *list, const struct list *larger, int byte)
{
    size_t line, at = 0;
    for (line = 0; line < larger->count; line++) {
        const int32_t *words = line_at(larger, line);
        if (!has_one_of(byte, words)) {
            if (at == list->count || memcmp(words, line_at(list, at), list->wide * sizeof *words) != 0) {
                return 0;
            }
            at++;
        }
    }
    return at == list->count;
}

/* The tables with a rule for each spare trigger, with marks: under rule 2 those triggers would need a lag. */
static struct tables in_use_by_marks(struct random *random, const struct tables *tables)
{
    static struct planned refused;
    struct tables in_use = all_in_use(tables), marked;
    if (!by_spread(tables)) {
        return in_use;
    }
    plan_tables(random, &refused, &in_use);
    expect(refused.number == TUZHELAR_NO_TRIGGER_LAG, "under rule 2 a rule that asks for nothing, for a trigger without a lag, is not 14");
    marked = by_marks(tables);
    return all_in_use(&marked);
}

static void check_in_use(struct random *random, const struct tables *tables, const struct planned *planned)
{
    static struct planned larger;
    struct tables in_use = in_use_by_marks(random, tables);
    struct list list = planned_list(planned, tables), larger_list;
    plan_tables(random, &larger, &in_use);
    larger_list = planned_list(&larger, &in_use);
    expect(larger.number == planned->number, "a rule that asks for nothing makes a sheet refused, or good");
    expect(memcmp(larger.answer, planned->answer, 3 * sizeof *larger.answer) == 0,
           "where its spare triggers are not spare a sheet has another deviation, or other steps or selections");
    expect(larger.answer[4] == 0, "a trigger with a rule is spare");
    expect(memcmp(larger.kept, planned->kept, sizeof larger.kept) == 0,
           "where its spare triggers are not spare a sheet has another kept table");
    expect(is_rest(&list, &larger_list, spares(tables)), "the list is not that of the sheet whose triggers are all in use, without theirs");
}

/* ---- What was met */

static int bits(int byte)
{
    int count = 0;
    for (; byte != 0; byte &= byte - 1) {
        count++;
    }
    return count;
}

static void note_spares(const struct tables *tables)
{
    int n = tables->triggers, byte = spares(tables), inner = byte & ~1 & ~(1 << (n - 1));
    met_spares.sheets++;
    met_spares.first += (uint64_t)(byte & 1);
    met_spares.last += (uint64_t)(byte >> (n - 1) & 1);
    met_spares.between += inner != 0;
    met_spares.several += bits(byte) > 1;
    met_spares.five += bits(byte) == MOST - 1;
}

enum only_entry only_entry(const struct tables *tables, int trigger)
{
    enum only_entry kind = NOT_ONE;
    int entries = 0, i;
    for (i = 0; i < MOST; i++) {
        if (tables->lag[i][trigger] != NONE) {
            return NOT_ONE;
        }
        if (tables->after[trigger][i] != NONE) {
            kind = i == trigger ? ON_DIAGONAL : IN_ROW;
            entries++;
        }
        if (i != trigger && tables->after[i][trigger] != NONE) {
            kind = IN_COLUMN;
            entries++;
        }
        if (tables->land[trigger][i] != NONE) {
            kind = IN_LAND;
            entries++;
        }
    }
    return entries == 1 ? kind : NOT_ONE;
}

static void note_only_entries(const struct tables *tables)
{
    int j;
    for (j = 0; j < tables->triggers; j++) {
        enum only_entry only = only_entry(tables, j);
        met_spares.diagonal += only == ON_DIAGONAL;
        met_spares.row += only == IN_ROW;
        met_spares.column += only == IN_COLUMN;
        met_spares.land += only == IN_LAND;
    }
}

void check_spares(struct random *random, const struct text *text, const struct tables *tables)
{
    static struct planned planned;
    note_only_entries(tables);
    if (spares(tables) == 0) {
        return;
    }
    note_spares(tables);
    plan_text(&planned, text);
    check_other_due(random, tables, &planned);
    check_without(random, tables, &planned);
    check_in_use(random, tables, &planned);
}
