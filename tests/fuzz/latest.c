/*
 * Document 02, No. 1 and 5. For a sheet that has a plan and times within the limits: where the space holds the list, it holds it as after
 * planning; the times given back are tightest and in time by the meaning of the sheet and by tuzhelar_test, none is later than given, and they
 * are what lowering the given times by the meaning comes to or, where that would take long, what the list makes with the largest weights that
 * fit and are no greater than the caps; a spare trigger's is the one given (No. 4). Where the space does not hold the list, 9 gives the count
 * and the words of a line and writes nothing else; nor does any other refusal write anything.
 */
#include "latest.h"

#include <string.h>

#include "lent.h"
#include "list.h"
#include "meaning.h"
#include "pairs.h"
#include "spares.h"
#include "tuzhelar.h"

#define WORDS 16008       /* of a space, at most: those that the program `plan` lends, and some */
#define ANSWER_WORDS 10   /* of the answer, at most */
#define MOST_TIMES 8      /* that are lent, at most */
#define WISHES 3          /* times given for each sheet */
#define ROUNDS 2000       /* in which times are lowered */
#define UNTOUCHED_WORD 0x5a5a5a5a
#define UNTOUCHED INT64_C(0x5a5a5a5a5a5a5a5a)

struct met_latest met_latest;

static struct area sheet_area, times_area, space_area, answer_area;

/* What is asked, and what comes back. */
struct asked {
    const struct text *text;
    const int64_t *times;
    size_t times_length, words, answer_length;
};

struct answered {
    uint32_t number;
    int64_t words[ANSWER_WORDS]; /* past its length UNTOUCHED */
    const int32_t *space;
};

int make_latest(void)
{
    sheet_area = make_area(ROOM);
    times_area = make_area(MOST_TIMES * sizeof(int64_t));
    space_area = make_area(WORDS * sizeof(int32_t));
    answer_area = make_area(ANSWER_WORDS * sizeof(int64_t));
    return guarded(&sheet_area) && guarded(&times_area) && guarded(&space_area) && guarded(&answer_area);
}

/* ---- The function, on memory of just the lengths given */

static void *lend_copy(struct area *area, const void *from, size_t size, int at_end)
{
    void *lent = lend(area, size, at_end);
    if (size > 0) {
        memcpy(lent, from, size);
    }
    return lent;
}

static void copy_stays(const struct area *area, const void *lent, const void *from, size_t size, int at_end)
{
    expect(marks_stay(area, size, at_end) && (size == 0 || memcmp(lent, from, size) == 0), "the latest times: what is only read was written");
}

static struct answered ask(struct random *random, const struct asked *asked)
{
    int at_end = chance(random, 50), other_at_end = chance(random, 50);
    size_t times_size = asked->times_length * sizeof *asked->times, space_size = asked->words * sizeof(int32_t), i;
    uint8_t *sheet = (uint8_t *)lend_copy(&sheet_area, asked->text->bytes, asked->text->length, at_end);
    int64_t *times = (int64_t *)lend_copy(&times_area, asked->times, times_size, other_at_end);
    int32_t *space = (int32_t *)lend(&space_area, space_size, at_end);
    int64_t *answer = (int64_t *)lend(&answer_area, asked->answer_length * sizeof *answer, other_at_end);
    struct answered answered;
    for (i = 0; i < asked->words; i++) {
        space[i] = UNTOUCHED_WORD;
    }
    for (i = 0; i < asked->answer_length; i++) {
        answer[i] = UNTOUCHED;
    }
    answered.number = tuzhelar_latest(sheet, asked->text->length, times, asked->times_length, space, asked->words, answer,
                                      asked->answer_length);
    for (i = 0; i < ANSWER_WORDS; i++) {
        answered.words[i] = i < asked->answer_length ? answer[i] : UNTOUCHED;
    }
    answered.space = space;
    copy_stays(&sheet_area, sheet, asked->text->bytes, asked->text->length, at_end);
    copy_stays(&times_area, times, asked->times, times_size, other_at_end);
    expect(marks_stay(&space_area, space_size, at_end), "the latest times: words beside the space were written");
    expect(marks_stay(&answer_area, asked->answer_length * sizeof *answer, other_at_end),
           "the latest times: words beside the answer were written");
    return answered;
}

/* From these places on the answer and the space are as they were. */
static void rest_stays(const struct asked *asked, const struct answered *answered, size_t first, size_t first_word)
{
    size_t i;
    for (i = first; i < ANSWER_WORDS; i++) {
        expect(answered->words[i] == UNTOUCHED, "the latest times: words of the answer were written that stay");
    }
    for (i = first_word; i < asked->words; i++) {
        expect(answered->space[i] == UNTOUCHED_WORD, "the latest times: words of the space were written that stay");
    }
}

void check_latest_refused(struct random *random, const struct text *text, const int64_t *times, size_t length, uint32_t number)
{
    struct asked asked;
    struct answered answered;
    asked.text = text;
    asked.times = times;
    asked.times_length = length;
    asked.words = (size_t)below(random, 40);
    asked.answer_length = (size_t)below(random, ANSWER_WORDS + 1);
    answered = ask(random, &asked);
    expect(answered.number == number, "the latest times: a refusal is not the one due first");
    rest_stays(&asked, &answered, 0, 0);
}

void check_latest_many(const struct text *text, size_t length, uint32_t number)
{
    const int64_t *times = (const int64_t *)lend(&times_area, 0, 1);
    uint8_t *sheet = (uint8_t *)lend_copy(&sheet_area, text->bytes, text->length, 1);
    int32_t *space = (int32_t *)lend(&space_area, 0, 1);
    int64_t *answer = (int64_t *)lend(&answer_area, 0, 1);
    expect(tuzhelar_latest(sheet, text->length, times, length, space, 0, answer, 0) == number,
           "the latest times: more than triggers can be are not refused as due");
}

/* ---- What must come back */

static int64_t later(int64_t a, int64_t b)
{
    return a > b ? a : b;
}

static int64_t earlier(int64_t a, int64_t b)
{
    return a < b ? a : b;
}

/* The latest that trigger j may come by the rules, as the others stand: those of after itself, and of a landing that j has a part in. */
static int64_t latest_by_rules(const struct tables *tables, const int64_t *times, int j)
{
    int64_t latest = times[j];
    int i, panel;
    for (i = 0; i < tables->triggers; i++) {
        if (tables->after[i][j] != NONE) {
            latest = earlier(latest, times[i] - tables->after[i][j]);
        }
        for (panel = 0; panel < tables->panels; panel++) {
            if (tables->land[i][panel] != NONE && tables->lag[panel][j] != NONE) {
                latest = earlier(latest, times[i] - tables->land[i][panel] - tables->lag[panel][j]);
            }
        }
    }
    return latest;
}

/* The latest that trigger j may come by the last moments of the panels that it reaches. */
static int64_t latest_by_moments(const struct tables *tables, int64_t time, int j)
{
    int panel;
    for (panel = 0; has_last(tables) && panel < tables->panels; panel++) {
        if (tables->lag[panel][j] != NONE) {
            time = earlier(time, tables->last[panel] - tables->lag[panel][j]);
        }
    }
    return time;
}

/* What a deviation allows, as the times stand: how far a trigger may come behind its due mark, or under rule 2 how late a panel may land. */
static int64_t allowed_by(const struct tables *tables, int64_t deviation, const int64_t *times)
{
    return by_spread(tables) ? deviation + earliest(tables, times) : deviation - early(tables, times);
}

/* The latest that trigger j may come by that. */
static int64_t latest_allowed(const struct tables *tables, int64_t allowed, int64_t time, int j)
{
    int panel;
    if (is_spare(tables, j)) {
        return time;
    }
    if (!by_spread(tables)) {
        return tables->due[j] + allowed;
    }
    for (panel = 0; panel < tables->panels; panel++) {
        time = tables->lag[panel][j] == NONE ? time : earlier(time, allowed - tables->lag[panel][j]);
    }
    return time;
}

/*
 * Lowers times until they meet the last moments, keep the after and land rules and none is too late for the landings. All tightest times in
 * time that are no later than those given stay no later than these, and where these come to rest they are such. Returns whether they did.
 * Spare triggers are not lowered.
 */
static int lower(const struct tables *tables, int64_t least, int64_t *times)
{
    int n = tables->triggers, round, lowered, j;
    for (j = 0; j < n; j++) {
        times[j] = latest_by_moments(tables, times[j], j);
    }
    for (round = 0; round < ROUNDS; round++) {
        int64_t allowed = allowed_by(tables, least, times);
        for (lowered = 0, j = 0; j < n; j++) {
            int64_t before = times[j];
            times[j] = earlier(latest_by_rules(tables, times, j), latest_allowed(tables, allowed, before, j));
            lowered = lowered || times[j] != before;
        }
        if (!lowered) {
            return 1;
        }
    }
    return 0;
}

/*
 * The list with the largest weights that lift no component above the given times, which spare triggers keep; where `capped` is set, with none
 * greater than its cap.
 */
static void weigh(const struct tables *tables, const struct list *list, int capped, const int64_t *given, int64_t *times)
{
    int n = tables->triggers, j;
    size_t i;
    clear_times(times);
    for (i = 0; i < list->count; i++) {
        const int32_t *line = line_at(list, i);
        int64_t weight = capped ? cap_at(list, i) : INT64_MAX;
        for (j = 0; j < n; j++) {
            weight = line[1 + j] == TUZHELAR_ABSENT ? weight : earlier(weight, given[j] - line[1 + j]);
        }
        lift(times, line, weight);
    }
    for (j = 0; j < n; j++) {
        times[j] = is_spare(tables, j) ? given[j] : times[j];
    }
}

/* ---- The checks */

static int64_t limit(struct random *random)
{
    return chance(random, 50) ? TUZHELAR_LAST_TIME : -(int64_t)TUZHELAR_LAST_TIME;
}

static int64_t moved(struct random *random, int manner, int64_t time)
{
    switch (manner) {
    case 0:
        return time + between(random, 0, 3);
    case 1:
        return time + between(random, -3, 3);
    case 2:
        return time + between(random, -300000, 300000);
    case 3:
        return between(random, -TUZHELAR_LAST_TIME, TUZHELAR_LAST_TIME);
    case 4:
        return limit(random);
    default:
        return time;
    }
}

/* Times that the list makes, in time or not, or some or all of them moved, anywhere or at a limit; for spare triggers any. */
static void wish(struct random *random, const struct tables *tables, const struct list *list, int64_t *times)
{
    int n = tables->triggers, far = chance(random, 20), manner = below(random, 6), all = chance(random, 50), j;
    int64_t around[MOST];
    for (j = 0; j < n; j++) {
        around[j] = far ? limit(random) : between(random, -1000, 1000);
    }
    weigh(tables, list, chance(random, 50), around, times);
    for (j = 0; j < n; j++) {
        times[j] = all || chance(random, 50) ? moved(random, manner, times[j]) : times[j];
        times[j] = later(-(int64_t)TUZHELAR_LAST_TIME, earlier(TUZHELAR_LAST_TIME, times[j]));
    }
    fill_spares(random, tables, times);
}

static int within(const int64_t *times, int n)
{
    int j;
    for (j = 0; j < n; j++) {
        if (times[j] < -(int64_t)TUZHELAR_LAST_TIME || times[j] > TUZHELAR_LAST_TIME) {
            return 0;
        }
    }
    return 1;
}

/* Whether it is for the last moments that the latest times are no later. */
static int held_back(const struct tables *tables, const struct list *list, const int64_t *given, const int64_t *found)
{
    int64_t times[MOST];
    weigh(tables, list, 0, given, times);
    return memcmp(found, times, (size_t)tables->triggers * sizeof *found) != 0;
}

static void check_times(const struct asked *asked, const struct tables *tables, const struct list *list, int64_t least,
                        const int64_t *found)
{
    int64_t wanted[MOST];
    int n = tables->triggers, j;
    memcpy(wanted, asked->times, (size_t)n * sizeof *wanted);
    if (lower(tables, least, wanted)) {
        met_latest.by_meaning++;
    } else {
        weigh(tables, list, 1, asked->times, wanted);
    }
    for (j = 0; j < n; j++) {
        expect(!is_spare(tables, j) || found[j] == asked->times[j], "the latest times: a spare trigger's is not the one given");
    }
    for (j = 0; j < MOST; j++) {
        expect(found[j] == (j < n ? wanted[j] : 0), "the latest times are not the latest, or unused ones are not 0");
        expect(j >= n || found[j] <= asked->times[j], "the latest times: one is later than given");
    }
    expect(keeps_order(tables, found) && deviation(tables, found) == least, "the latest times are not tightest by the meaning");
    expect(in_time(tables, found), "the latest times are not in time by the meaning");
    expect(!within(found, n) || tuzhelar_test(asked->text->bytes, asked->text->length, found, (size_t)n) == TUZHELAR_YES,
           "the latest times are not tightest and in time by the test");
    met_latest.found++;
    met_latest.given += memcmp(found, asked->times, (size_t)n * sizeof *found) == 0;
    met_latest.held_back += held_back(tables, list, asked->times, found);
}

/* A word of the answer of a length: as wanted, or not there. */
static void check_word(const struct asked *asked, struct answered *answered, size_t at, size_t wanted, const char *what)
{
    expect(at >= asked->answer_length || answered->words[at] == (int64_t)wanted, what);
    answered->words[at] = UNTOUCHED;
}

/* A line too few, or none, and an answer of any length. */
static void check_too_small(struct random *random, struct asked *asked, const struct list *list)
{
    struct answered answered;
    asked->words = chance(random, 50) ? 0 : list->count * list->wide - (size_t)between(random, 1, (int64_t)list->wide);
    asked->answer_length = (size_t)below(random, ANSWER_WORDS + 1);
    answered = ask(random, asked);
    expect(answered.number == TUZHELAR_SPACE, "the latest times: too few words are not 9");
    check_word(asked, &answered, 0, list->count, "the latest times: 9 does not give the count needed");
    check_word(asked, &answered, 7, list->wide, "the latest times: 9 does not give the words of a line");
    rest_stays(asked, &answered, 0, 0);
    met_latest.too_small++;
}

void check_latest(struct random *random, const struct text *text, const struct tables *tables, const struct list *list, int64_t least)
{
    size_t needed = list->count * list->wide;
    int64_t times[MOST];
    struct asked asked;
    struct answered answered;
    int tries;
    asked.text = text;
    asked.times = times;
    asked.times_length = (size_t)tables->triggers;
    for (tries = 0; tries < WISHES; tries++) {
        wish(random, tables, list, times);
        asked.words = needed + (size_t)below(random, 9);
        asked.answer_length = ANSWER_WORDS;
        answered = ask(random, &asked);
        expect(answered.number == TUZHELAR_DONE && answered.words[0] == (int64_t)list->count,
               "the latest times: not 0 with the number of lines");
        expect(answered.words[7] == (int64_t)list->wide, "the latest times: not with the words of a line");
        expect(memcmp(answered.space, list->words, needed * sizeof *list->words) == 0,
               "the latest times: the space does not hold the list");
        rest_stays(&asked, &answered, TUZHELAR_LATEST_WORDS, needed);
        check_times(&asked, tables, list, least, answered.words + 1);
    }
    check_too_small(random, &asked, list);
}
