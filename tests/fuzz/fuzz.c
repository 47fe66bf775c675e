/*
 * Tries the C interface on sheets of every kind and compares it with a second reader and with itself.
 *
 *   fuzz COUNT SEED [FIRST]   sheets FIRST (0) to FIRST + COUNT - 1 of a seed
 *
 * For each sheet: what the functions return is what the reader returns where it refuses; all of them are 8 exactly when the after
 * and land rules have a circle above 0; no byte or word that is not theirs is touched; a second planning into just enough words gives the
 * same list, and into fewer 9 with the same count; times that are tested have the answer that the meaning of the sheet gives; what the list
 * makes is tightest; the latest times that are no later than given ones are those that the meaning gives (latest.c); land lines without a
 * rule change nothing (land.c); the spare triggers are those that the tables of the sheet say, have no part in lines and kept bytes, may have
 * any time, and make no difference to the others (spares.c); a last line gives each line its cap, holds tested and latest times back, and
 * makes no difference else (last.c); a sheet under rule 2 is answered as the one with the marks that say the same (rule.c); and it is compared
 * with a second sheet, often one that means the same or nearly so (pairs.c). Behind every sixteenth sheet come some that the library makes, and
 * a second generator too (hire.c), and the last of these is tried like the others.
 * The last line is: N passed, M failed. A sheet that fails is written with its number, so that it can be tried alone.
 */
#define _DEFAULT_SOURCE
#include <inttypes.h>
#include <signal.h>
#include <stdio.h>
#include <stdlib.h>
#include <string.h>
#include <time.h>
#include <unistd.h>

#include "hire.h"
#include "land.h"
#include "last.h"
#include "latest.h"
#include "lent.h"
#include "list.h"
#include "meaning.h"
#include "pairs.h"
#include "reader.h"
#include "related.h"
#include "rule.h"
#include "sheets.h"
#include "spares.h"
#include "tuzhelar.h"

#define SHOWN 5             /* failures that are written in full */
#define PROGRAM_WORDS 16000 /* words that the program `plan` lends */
#define MOST_LINES 279936   /* no list has more: 6 to the power 7 */
#define ANSWER_WORDS 20     /* more than any answer has */
#define MOST_TIMES 8        /* times that are lent, at most */
#define HIRED 16            /* behind one of so many sheets the library makes some */
#define READS (TUZHELAR_NO_TRIGGER_LAG + 1) /* what reading returns is below this */
#define UNTOUCHED_WORD 0x5a5a5a5a
#define UNTOUCHED INT64_C(0x5a5a5a5a5a5a5a5a)

static struct area sheet_area, space_area, answer_area, times_area;

/* The sheet that is tried, and the one that it is compared with. */
static uint64_t seed, current;
static struct text text, other;
static int sheet_at_end;
static const uint8_t *sheet;

/* How many words a line of the sheet takes, by its tables. */
static size_t wide;

/* What was wrong with it: the first fault found. */
static const char *wrong;

/* What was met in the run. */
static struct {
    uint64_t read[READS], planned, no_order, too_small, tested[102], compared[300], known;
    size_t most_lines;
    int64_t most_selections;
} met;

void expect(int holds, const char *what)
{
    if (!holds && wrong == NULL) {
        wrong = what;
    }
}

/* ---- The functions on one sheet, each on memory of just the lengths given */

struct answered {
    uint32_t number;
    int64_t words[ANSWER_WORDS]; /* past its length UNTOUCHED */
};

static void lend_sheet(struct random *random)
{
    uint8_t *lent;
    sheet_at_end = chance(random, 70);
    lent = (uint8_t *)lend(&sheet_area, text.length, sheet_at_end);
    if (text.length > 0) {
        memcpy(lent, text.bytes, text.length);
    }
    sheet = lent;
}

static void sheet_stays(void)
{
    expect(marks_stay(&sheet_area, text.length, sheet_at_end), "bytes beside the sheet were written");
    expect(text.length == 0 || memcmp(sheet, text.bytes, text.length) == 0, "the sheet was written");
}

static int64_t *lend_answer(size_t length, int at_end)
{
    int64_t *lent = (int64_t *)lend(&answer_area, length * sizeof *lent, at_end);
    size_t i;
    for (i = 0; i < length; i++) {
        lent[i] = UNTOUCHED;
    }
    return lent;
}

static void take_answer(struct answered *answered, const int64_t *lent, size_t length, int at_end)
{
    size_t i;
    for (i = 0; i < ANSWER_WORDS; i++) {
        answered->words[i] = i < length ? lent[i] : UNTOUCHED;
    }
    expect(marks_stay(&answer_area, length * sizeof *lent, at_end), "words beside the answer were written");
    sheet_stays();
}

static struct answered try_kept(struct random *random, size_t length)
{
    int at_end = chance(random, 50);
    int64_t *answer = lend_answer(length, at_end);
    struct answered answered;
    answered.number = tuzhelar_kept(sheet, text.length, answer, length);
    take_answer(&answered, answer, length, at_end);
    return answered;
}

/* Plans into `words` words; `*space` is where they stand until the next planning. */
static struct answered try_plan(struct random *random, size_t words, size_t length, const int32_t **space)
{
    int at_end = chance(random, 50), space_at_end = chance(random, 50);
    int64_t *answer = lend_answer(length, at_end);
    int32_t *lent = (int32_t *)lend(&space_area, words * sizeof *lent, space_at_end);
    struct answered answered;
    size_t i, written;
    for (i = 0; i < words; i++) {
        lent[i] = UNTOUCHED_WORD;
    }
    answered.number = tuzhelar_plan(sheet, text.length, lent, words, answer, length);
    take_answer(&answered, answer, length, at_end);
    expect(marks_stay(&space_area, words * sizeof *lent, space_at_end), "words beside the space were written");
    /* With an answer too short for the count, its fourth word, there is nothing to hold the space to. */
    if (answered.number != TUZHELAR_DONE || length > 3) {
        written = answered.number == TUZHELAR_DONE ? (size_t)answered.words[3] * wide : 0;
        expect(written <= words, "more lines than the space holds");
        for (i = written; i < words; i++) {
            expect(lent[i] == UNTOUCHED_WORD, "words behind the list, or on a refusal, were written");
        }
    }
    *space = lent;
    return answered;
}

static uint32_t try_test(struct random *random, const int64_t *times, size_t length)
{
    int at_end = chance(random, 50);
    int64_t *lent = (int64_t *)lend(&times_area, length * sizeof *lent, at_end);
    uint32_t number;
    if (length > 0) {
        memcpy(lent, times, length * sizeof *lent);
    }
    number = tuzhelar_test(sheet, text.length, lent, length);
    expect(marks_stay(&times_area, length * sizeof *lent, at_end), "words beside the times were written");
    expect(length == 0 || memcmp(lent, times, length * sizeof *lent) == 0, "the times were written");
    sheet_stays();
    if (number < sizeof met.tested / sizeof met.tested[0]) {
        met.tested[number]++;
    }
    return number;
}

/* More times than a sheet can have, none of which is there to be read. */
static uint32_t try_many(size_t length)
{
    uint32_t number = tuzhelar_test(sheet, text.length, (const int64_t *)lend(&times_area, 0, 1), length);
    sheet_stays();
    return number;
}

static int all_untouched(const struct answered *answered, size_t first)
{
    size_t i;
    for (i = first; i < ANSWER_WORDS; i++) {
        if (answered->words[i] != UNTOUCHED) {
            return 0;
        }
    }
    return 1;
}

/* Whether times are tightest, in time or not, on a sheet whose order can be kept. */
static int tightest(const struct tables *tables, const int64_t *times, int64_t least)
{
    if (!keeps_order(tables, times)) {
        return 0;
    }
    expect(deviation(tables, times) >= least, "times with a deviation below the least one");
    return deviation(tables, times) == least;
}

/* What testing must answer for times within its limits, on such a sheet. */
static uint32_t meant(const struct tables *tables, const int64_t *times, int64_t least)
{
    return tightest(tables, times, least) && in_time(tables, times) ? TUZHELAR_YES : TUZHELAR_NO;
}

/* ---- The checks */

/* A sheet that reading refuses: every function returns the refusal, whatever else it is given, and writes nothing. */
static void check_refused(struct random *random, uint32_t refusal)
{
    size_t kept_length = (size_t)below(random, ANSWER_WORDS + 1), plan_length = (size_t)below(random, ANSWER_WORDS + 1);
    size_t times_length = (size_t)below(random, MOST_TIMES + 1);
    int64_t times[MOST_TIMES] = {0};
    const int32_t *space;
    struct answered kept = try_kept(random, kept_length), plan = try_plan(random, (size_t)below(random, 100), plan_length, &space);
    expect(kept.number == refusal, "the kept table's refusal is not the reader's");
    expect(plan.number == refusal, "planning's refusal is not the reader's");
    expect(all_untouched(&kept, 0) && all_untouched(&plan, 0), "a refusal wrote to the answer");
    times[below(random, MOST_TIMES)] = (int64_t)next_random(random);
    expect(try_test(random, times, times_length) == refusal, "testing's refusal is not the reader's");
    expect(try_many(SIZE_MAX - times_length) == refusal, "testing's refusal with many times is not the reader's");
    check_latest_refused(random, &text, times, times_length, refusal);
    check_latest_many(&text, SIZE_MAX - times_length, refusal);
}

/* Times that testing refuses, and reaching for the latest too: 10 before 11, and both before 8. */
static void check_times_refused(struct random *random, int n)
{
    int64_t times[MOST_TIMES] = {0}, beyond = TUZHELAR_LAST_TIME + between(random, 1, 1000);
    size_t count = (size_t)below(random, MOST_TIMES + 1);
    /* Zeros that are not lent must not be made up. */
    if (count != (size_t)n) {
        expect(try_test(random, times, count) == TUZHELAR_COMPONENTS, "a wrong number of times is not 10");
        check_latest_refused(random, &text, times, count, TUZHELAR_COMPONENTS);
    }
    times[below(random, n)] = chance(random, 30) ? INT64_MIN : chance(random, 50) ? beyond : -beyond;
    expect(try_test(random, times, (size_t)n) == TUZHELAR_TIME, "a time beyond the limit is not 11");
    check_latest_refused(random, &text, times, (size_t)n, TUZHELAR_TIME);
    if (count != (size_t)n) {
        expect(try_test(random, times, count) == TUZHELAR_COMPONENTS, "a wrong number of times, with one beyond the limit, is not 10");
        check_latest_refused(random, &text, times, count, TUZHELAR_COMPONENTS);
    }
    count = count > MOST ? count : SIZE_MAX - count;
    expect(try_many(count) == TUZHELAR_COMPONENTS, "more times than triggers can be are not 10");
    check_latest_many(&text, count, TUZHELAR_COMPONENTS);
}

/* A good sheet whose order no times keep. */
static void check_no_order(struct random *random, const struct tables *tables)
{
    int64_t times[MOST];
    size_t length = (size_t)below(random, ANSWER_WORDS + 1);
    const int32_t *space;
    struct answered plan = try_plan(random, (size_t)below(random, 100), length, &space);
    int j;
    expect(circle_above_0(tables), "8 without a circle above 0");
    expect(plan.number == TUZHELAR_ORDER, "the kept table is 8 and planning is not");
    expect(all_untouched(&plan, 0), "8 wrote to the answer");
    for (j = 0; j < MOST; j++) {
        times[j] = between(random, -TUZHELAR_LAST_TIME, TUZHELAR_LAST_TIME);
    }
    expect(try_test(random, times, (size_t)tables->triggers) == TUZHELAR_ORDER, "the kept table is 8 and testing is not");
    check_latest_refused(random, &text, times, (size_t)tables->triggers, TUZHELAR_ORDER);
}

/* The kept table's words: sizes and bits fit the sheet. */
static void check_kept_words(const struct tables *tables, const struct answered *kept)
{
    int i, j, bits;
    expect(kept->words[3] == tables->panels, "the number of panels is not the sheet's");
    for (i = 0; i < MOST; i++) {
        int64_t byte = kept->words[4 + 2 * i];
        for (bits = 0, j = 0; j < MOST; j++) {
            bits += (int)(byte >> j & 1);
        }
        expect(byte >= 0 && byte >> tables->triggers == 0, "a kept byte has more bits than triggers");
        expect((byte & spares(tables)) == 0, "a spare trigger is kept");
        expect(kept->words[5 + 2 * i] == bits, "a count of kept triggers is not the byte's");
        expect(has_floor(tables, i) == (byte != 0), "a panel keeps triggers exactly when it has a floor");
    }
    expect(all_untouched(kept, TUZHELAR_KEPT_WORDS), "words behind the kept table's answer were written");
}

/* The list's form: counts, components of spare triggers and unused ones, the shift, and the order of lines. */
static void check_lines(const struct tables *tables, const struct list *list)
{
    int n = tables->triggers, j;
    size_t i;
    for (i = 0; i < list->count; i++) {
        const int32_t *line = line_at(list, i), *before = line_at(list, i == 0 ? 0 : i - 1);
        int32_t greatest = TUZHELAR_ABSENT;
        expect(line[0] == n, "a line's count of triggers is not the sheet's");
        for (j = 1; j <= MOST; j++) {
            expect(j <= n || line[j] == TUZHELAR_ABSENT, "an unused component is present");
            expect(j > n || line[j] == TUZHELAR_ABSENT || !is_spare(tables, j - 1), "a spare trigger's component is present");
            greatest = line[j] > greatest ? line[j] : greatest;
        }
        expect(greatest == 0, "a line's greatest component is not 0");
        for (j = 1; i > 0 && j <= MOST && line[j] == before[j]; j++) {
        }
        expect(i == 0 || (j <= MOST && line[j] > before[j]), "two lines stand twice or out of order");
    }
}

static void check_time(struct random *random, const struct tables *tables, const int64_t *times, int64_t least, const char *what)
{
    expect(try_test(random, times, (size_t)tables->triggers) == meant(tables, times, least), what);
}

/* Whether there is a time for each trigger that is not spare. */
static int is_whole(const struct tables *tables, const int64_t *times)
{
    int j;
    for (j = 0; j < tables->triggers; j++) {
        if (times[j] == NONE && !is_spare(tables, j)) {
            return 0;
        }
    }
    return 1;
}

/* Lines without absent components are tightest. */
static void check_whole_lines(struct random *random, const struct tables *tables, const struct list *list, int64_t least)
{
    int64_t times[MOST];
    size_t i;
    for (i = 0; i < list->count; i++) {
        clear_times(times);
        lift(times, line_at(list, i), 0);
        if (is_whole(tables, times)) {
            fill_spares(random, tables, times);
            expect(tightest(tables, times, least), "a whole line is not tightest by the meaning");
            check_time(random, tables, times, least, "testing a whole line is not as the meaning says");
        }
    }
}

/* Combinations of all lines are tightest; and times beside one are as the meaning says. */
static void check_combination(struct random *random, const struct tables *tables, const struct list *list, int64_t least, int64_t reach)
{
    int64_t times[MOST];
    size_t i;
    clear_times(times);
    for (i = 0; i < list->count; i++) {
        lift(times, line_at(list, i), between(random, -reach, reach));
    }
    expect(is_whole(tables, times), "a component is absent in every line");
    if (wrong != NULL) {
        return;
    }
    fill_spares(random, tables, times);
    expect(tightest(tables, times, least), "a combination is not tightest by the meaning");
    check_time(random, tables, times, least, "testing a combination is not as the meaning says");
    times[below(random, tables->triggers)] += between(random, -2, 2);
    fill_spares(random, tables, times);
    check_time(random, tables, times, least, "testing times beside a combination is not as the meaning says");
}

/* What the list makes is tightest, and other times are as the meaning says. Spare triggers have any times throughout. */
static void check_times(struct random *random, const struct tables *tables, const struct list *list, int64_t least)
{
    int64_t times[MOST], reach = chance(random, 50) ? 3 : 300000;
    int j, tries;
    check_whole_lines(random, tables, list, least);
    for (tries = 0; wrong == NULL && tries < 3; tries++) {
        check_combination(random, tables, list, least, reach);
    }
    for (j = 0; j < tables->triggers; j++) {
        times[j] = between(random, -reach, reach);
    }
    fill_spares(random, tables, times);
    check_time(random, tables, times, least, "testing is not as the meaning says");
}

/* A word of planning's answer where the sheet has a plan. */
static int64_t plan_word(const struct tables *tables, const struct answered *kept, size_t count, size_t at)
{
    return at < 3 ? kept->words[at] : at == 3 ? (int64_t)count : at == 4 ? spares(tables) : (int64_t)wide;
}

/* The first words of an answer of planning: all that there are, or for 9 the count needed and the words of a line. */
static void check_answer(const struct tables *tables, const struct answered *kept, const struct answered *plan, size_t count, size_t length)
{
    int done = plan->number == TUZHELAR_DONE;
    size_t i;
    for (i = 0; i < length; i++) {
        expect(plan->words[i] == (done || i == 3 || i == 5 ? plan_word(tables, kept, count, i) : UNTOUCHED),
               "planning and the kept table differ, the spare triggers or the words of a line are not the sheet's, another planning has "
               "another count, or 9 gives more than it should");
    }
    expect(all_untouched(plan, length), "words behind planning's answer were written");
}

/* A word or a line too few; then just enough words, and an answer of any length. The list is left in `space`. */
static void check_room(struct random *random, const struct tables *tables, const struct answered *kept, size_t count, const int32_t **space)
{
    size_t length = (size_t)below(random, TUZHELAR_PLAN_WORDS + 2), words = count * wide;
    struct answered again = try_plan(random, words - (size_t)between(random, 1, (int64_t)wide), ANSWER_WORDS, space);
    expect(again.number == TUZHELAR_SPACE, "too few words are not 9");
    check_answer(tables, kept, &again, count, TUZHELAR_PLAN_WORDS);
    again = try_plan(random, words, length, space);
    expect(again.number == TUZHELAR_DONE, "just enough words are refused");
    check_answer(tables, kept, &again, count, length < TUZHELAR_PLAN_WORDS ? length : TUZHELAR_PLAN_WORDS);
}

/* A list of a sheet that has a plan, whose form is right. */
static void check_list(struct random *random, const struct tables *tables, const struct list *list, int64_t least)
{
    check_times(random, tables, list, least);
    if (wrong == NULL) {
        check_latest(random, &text, tables, list, least);
    }
    if (wrong == NULL) {
        check_last(random, &text, tables, list, least);
    }
}

/* A sheet that has a plan. */
static void check_planned(struct random *random, const struct tables *tables, const struct answered *kept)
{
    static int32_t lines[PROGRAM_WORDS];
    size_t words = (size_t)(chance(random, 2) ? PROGRAM_WORDS : below(random, 250)), count;
    const int32_t *space, *again;
    struct answered plan = try_plan(random, words, ANSWER_WORDS, &space);
    struct list list = {lines, 0, wide};

    expect(plan.words[3] >= 1 && plan.words[3] <= MOST_LINES, "a list without lines, or with more than there can be");
    if (wrong != NULL) {
        return;
    }
    list.count = count = (size_t)plan.words[3];
    expect(plan.number == (count > words / wide ? TUZHELAR_SPACE : TUZHELAR_DONE), "planning is neither 0 nor 9 where due");
    met.too_small += plan.number == TUZHELAR_SPACE;
    met.most_lines = count > met.most_lines ? count : met.most_lines;
    met.most_selections = kept->words[2] > met.most_selections ? kept->words[2] : met.most_selections;
    check_answer(tables, kept, &plan, count, TUZHELAR_PLAN_WORDS);
    expect(count * wide <= PROGRAM_WORDS, "a list of more than 2,000 lines, which this test cannot hold");
    if (wrong != NULL) {
        return;
    }
    if (plan.number == TUZHELAR_DONE) {
        memcpy(lines, space, count * wide * sizeof *lines);
    }
    check_room(random, tables, kept, count, &again);
    expect(plan.number != TUZHELAR_DONE || memcmp(lines, again, count * wide * sizeof *lines) == 0, "a second planning gives another list");
    memcpy(lines, again, count * wide * sizeof *lines);
    check_lines(tables, &list);
    if (wrong == NULL) {
        check_list(random, tables, &list, kept->words[0]);
    }
}

/* A sheet that reading takes. */
static void check_good(struct random *random, const struct tables *tables)
{
    struct answered kept = try_kept(random, ANSWER_WORDS);
    check_times_refused(random, tables->triggers);
    if (kept.number == TUZHELAR_ORDER) {
        met.no_order++;
        expect(all_untouched(&kept, 0), "8 wrote to the kept table's answer");
        check_no_order(random, tables);
    } else if (kept.number == TUZHELAR_DONE) {
        met.planned++;
        expect(!circle_above_0(tables), "no 8 with a circle above 0");
        check_kept_words(tables, &kept);
        if (wrong == NULL) {
            check_planned(random, tables, &kept);
        }
    } else {
        expect(0, "the reader takes the sheet and the kept table refuses it");
    }
    if (wrong == NULL) {
        check_land(&text, tables);
    }
    if (wrong == NULL) {
        check_spares(random, &text, tables);
    }
    if (wrong == NULL) {
        check_rule(random, &text, tables);
    }
}

/* The sheet and another one, in either order. A good one is compared with several, most of them related to it. */
static void check_pairs(struct random *random, const struct tables *tables, int good)
{
    int pairs = good ? 2 : 1;
    for (; wrong == NULL && pairs > 0; pairs--) {
        int known = 0, turned = chance(random, 30);
        uint32_t number;
        if (good && chance(random, 85)) {
            known = make_related(random, tables, &other);
        } else {
            make_sheet(random, &other);
        }
        number = turned ? check_pair(random, &other, &text, known) : check_pair(random, &text, &other, known);
        if (number < sizeof met.compared / sizeof met.compared[0]) {
            met.compared[number]++;
        }
        met.known += known && number == TUZHELAR_SAME;
    }
}

/* All that is tried on the sheet that stands in the text. */
static void check_sheet(struct random *random)
{
    struct tables tables;
    uint32_t refusal;
    other.length = 0;
    lend_sheet(random);
    refusal = read_tables(text.bytes, text.length, &tables);
    wide = line_words(&tables);
    met.read[refusal]++;
    if (refusal != 0) {
        note_lagless(&tables, refusal);
        check_refused(random, refusal);
    } else {
        check_good(random, &tables);
    }
    check_pairs(random, &tables, refusal == 0);
}

static void try_sheet(void)
{
    struct random random = random_for(seed, current);
    wrong = NULL;
    make_sheet(&random, &text);
    check_sheet(&random);
    if (wrong == NULL && current % HIRED == 0) {
        check_hire(&random, &text);
        check_sheet(&random);
    }
}

/* ---- The run */

static void write_text(const struct text *text)
{
    size_t i;
    printf("    \"");
    for (i = 0; i < text->length; i++) {
        uint8_t byte = text->bytes[i];
        if (byte == '\n') {
            printf("\\n");
        } else if (byte < 0x20 || byte >= 0x7f || byte == '"' || byte == '\\') {
            printf("\\%03o", byte);
        } else {
            putchar(byte);
        }
    }
    printf("\"\n");
}

/* The sheet and, if there is one, the other. */
static void write_sheet(void)
{
    write_text(&text);
    if (other.length > 0) {
        write_text(&other);
    }
}

/* A page was touched that was not lent: nothing can be said after that. */
static void touched(int number)
{
    (void)number;
    printf("FAILED: sheet %" PRIu64 " of seed %" PRIu64 ": memory was touched that was not lent\n", current, seed);
    write_sheet();
    fflush(stdout);
    _exit(3);
}

/* Two sheets compared, and sheets made. */
static void print_other(void)
{
    uint64_t refused_first = 0, refused_second = 0;
    size_t i;
    for (i = 0; i < READS; i++) {
        refused_first += met.compared[i];
        refused_second += met.compared[TUZHELAR_SECOND + i];
    }
    printf("two sheets: same timings: %" PRIu64 ", of these known: %" PRIu64 ", others: %" PRIu64 ", 102: %" PRIu64
           ", of these by the spare triggers: %" PRIu64 ", first refused: %" PRIu64 ", second: %" PRIu64 "\n", met.compared[TUZHELAR_SAME],
           met.known, met.compared[TUZHELAR_DIFFERENT], met.compared[TUZHELAR_UNLIKE], met_pairs.other_spares, refused_first, refused_second);
    printf("sheets under different rules: same timings: %" PRIu64 ", others: %" PRIu64 "\n", met_pairs.rules_same, met_pairs.rules_different);
    printf("sheets made: %" PRIu64 ", the longest: %zu bytes; 12: %" PRIu64 ", 13: %" PRIu64 "\n", met_hire.made, met_hire.longest,
           met_hire.wrong_size, met_hire.too_small);
}

/* Sheets under rule 2. */
static void print_rule(void)
{
    printf("good sheets under rule 2: %" PRIu64 ", of these 8: %" PRIu64 ", with land rules: %" PRIu64 ", with a last line: %" PRIu64
           ", with spare triggers: %" PRIu64 ", with a spread of 0: %" PRIu64 "\n", met_rule.sheets, met_rule.no_order, met_rule.land,
           met_rule.last, met_rule.spare, met_rule.even);
    printf("14 by one entry: on the diagonal: %" PRIu64 ", in the row: %" PRIu64 ", in the column: %" PRIu64 ", a land entry: %" PRIu64
           "; 14 before 8: %" PRIu64 "; 6 before 14: %" PRIu64 "\n", met_rule.diagonal, met_rule.row, met_rule.column, met_rule.land_row,
           met_rule.lagless_no_order, met_rule.lagless_panel);
}

static void print_met(void)
{
    int i;
    printf("reading:");
    for (i = 1; i <= 7; i++) {
        printf(" %d: %" PRIu64 ",", i, met.read[i]);
    }
    printf(" 14: %" PRIu64 ", good: %" PRIu64 "; of these 8: %" PRIu64 ", planned: %" PRIu64 ", of these first 9: %" PRIu64 "\n",
           met.read[TUZHELAR_NO_TRIGGER_LAG], met.read[0], met.no_order, met.planned, met.too_small);
    printf("times: yes: %" PRIu64 ", no: %" PRIu64 ", 8: %" PRIu64 ", 10: %" PRIu64 ", 11: %" PRIu64 "\n", met.tested[TUZHELAR_YES],
           met.tested[TUZHELAR_NO], met.tested[TUZHELAR_ORDER], met.tested[TUZHELAR_COMPONENTS], met.tested[TUZHELAR_TIME]);
    printf("latest times: found: %" PRIu64 ", of these as given: %" PRIu64 ", by the meaning alone: %" PRIu64 ", held back by last moments: %"
           PRIu64 "; 9: %" PRIu64 "\n", met_latest.found, met_latest.given, met_latest.by_meaning, met_latest.held_back,
           met_latest.too_small);
    printf("good sheets with land lines: %" PRIu64 ", of these without a rule: %" PRIu64 ", with rules that make 8: %" PRIu64
           ", that change the plan: %" PRIu64 "\n", met_land.sheets, met_land.no_rule, met_land.no_order, met_land.changed);
    printf("good sheets with spare triggers: %" PRIu64 ", of these the first: %" PRIu64 ", the last: %" PRIu64 ", one between: %" PRIu64
           ", several: %" PRIu64 ", five of six: %" PRIu64 "\n", met_spares.sheets, met_spares.first, met_spares.last, met_spares.between,
           met_spares.several, met_spares.five);
    printf("triggers that one entry keeps from being spare: on the diagonal: %" PRIu64 ", in the row: %" PRIu64 ", in the column: %" PRIu64
           ", a land entry: %" PRIu64 "\n", met_spares.diagonal, met_spares.row, met_spares.column, met_spares.land);
    printf("planned sheets with a last line: %" PRIu64 ", of these with land rules: %" PRIu64 ", with spare triggers: %" PRIu64
           "; caps: %" PRIu64 ", of these below 0: %" PRIu64 ", for panels without a floor: %" PRIu64 "; times beside the caps in time: %"
           PRIu64 ", late: %" PRIu64 "\n", met_last.sheets, met_last.land, met_last.spare, met_last.caps, met_last.below_0,
           met_last.no_floor, met_last.in_time, met_last.late);
    print_rule();
    print_other();
    printf("the longest list: %zu lines; the most selections: %" PRId64 "\n", met.most_lines, met.most_selections);
}

static uint64_t argument(int count, char **values, int at, uint64_t otherwise)
{
    return at < count ? strtoull(values[at], NULL, 10) : otherwise;
}

int main(int argc, char **argv)
{
    uint64_t count = argument(argc, argv, 1, 0), first = argument(argc, argv, 3, 0), failed = 0;
    clock_t start = clock();
    if (argc < 3 || argc > 4) {
        fprintf(stderr, "usage: fuzz COUNT SEED [FIRST]\n");
        return 2;
    }
    seed = argument(argc, argv, 2, 1);
    sheet_area = make_area(ROOM);
    space_area = make_area(PROGRAM_WORDS * sizeof(int32_t));
    answer_area = make_area(ANSWER_WORDS * sizeof(int64_t));
    times_area = make_area(MOST_TIMES * sizeof(int64_t));
    if (!guarded(&sheet_area) || !guarded(&space_area) || !guarded(&answer_area) || !guarded(&times_area) || !make_latest() ||
        !make_pairs() || !make_hire()) {
        fprintf(stderr, "fuzz: the pages around the memory lent are not guarded\n");
        return 2;
    }
    signal(SIGSEGV, touched);
    signal(SIGBUS, touched);
    for (current = first; current - first < count; current++) {
        try_sheet();
        if (wrong != NULL && failed++ < SHOWN) {
            printf("FAILED: sheet %" PRIu64 " of seed %" PRIu64 ": %s\n", current, seed, wrong);
            write_sheet();
        }
    }
    printf("%" PRIu64 " sheets of seed %" PRIu64 ", %.1f s of processor time\n", count, seed, (double)(clock() - start) / CLOCKS_PER_SEC);
    print_met();
    printf("%" PRIu64 " passed, %" PRIu64 " failed\n", count - failed, failed);
    return failed != 0;
}
