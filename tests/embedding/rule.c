/*
 * Sheets under rule 2: their plans, kept tables, tested and latest times, which are those of the sheets with the marks that say the same;
 * comparing across the rules; what is refused, 14 before all that is not reading's; and the layer of embed/c/tuzhelar.h. Prints each case that
 * fails; the last line is 'N passed, M failed'. Also C++.
 */
#include "edges.h"

#define LAGS "panels=2\ntriggers=2\nlag=2,0\nlag=4,1\n"
#define AFTERS "after=-,-\nafter=-,-\n"
#define ONE "panels=1\ntriggers=1\nlag=5\n"
#define TWO "panels=1\ntriggers=2\nlag=7,-\n"

/* The whole case without its marks, and with those that say the same. */
static const char SPREAD[] = "rule=2\n" LAGS AFTERS;
static const char MARKED[] = LAGS "floor=0,0\ndue=-4,-1\n" AFTERS;
static const char LAST[] = "rule=2\n" LAGS AFTERS "last=6,6\n";
/* Trigger 2 is spare. */
static const char IDLE[] = "rule=2\n" TWO AFTERS;

/* A sheet, the one with the marks that say the same, planning's answer, the bytes of the panels, and its lines with their caps, if any. */
struct worked {
    const char *sheet, *marked;
    int64_t answer[TUZHELAR_PLAN_WORDS], kept[3];
    int32_t words[2 * TUZHELAR_CAPPED_WORDS];
};

static const struct worked WORKED[] = {
    {SPREAD, MARKED, {1, 2, 1, 2, 0, 7}, {2, 3, 0}, {2, NONE, 0, NONE, NONE, NONE, NONE, 2, -3, 0, NONE, NONE, NONE, NONE}},
    {LAST, LAGS "floor=0,0\ndue=-4,-1\n" AFTERS "last=6,6\n",
     {1, 2, 1, 2, 0, 8}, {2, 3, 0}, {2, NONE, 0, NONE, NONE, NONE, NONE, 5, 2, -3, 0, NONE, NONE, NONE, NONE, 5}},
    /* Example 6 of the paper. */
    {"rule=2\npanels=3\ntriggers=3\nlag=3,-1,-\nlag=-2,2,0\nlag=-1,-,4\nafter=-,-,-3\nafter=2,-,-\nafter=1,-2,-\n"
     "land=-,-,-\nland=0,-,-3\nland=-1,-,-\nlast=7,7,7\n",
     "panels=3\ntriggers=3\nlag=3,-1,-\nlag=-2,2,0\nlag=-1,-,4\nfloor=0,0,0\ndue=-3,-2,-4\nafter=-,-,-3\nafter=2,-,-\nafter=1,-2,-\n"
     "land=-,-,-\nland=0,-,-3\nland=-1,-,-\nlast=7,7,7\n",
     {3, 6, 2, 2, 0, 8}, {3, 7, 7}, {3, -5, 0, -2, NONE, NONE, NONE, 5, 3, -3, 0, -1, NONE, NONE, NONE, 4}},
    {IDLE, TWO "floor=0\ndue=-7,0\n" AFTERS, {0, 1, 1, 1, 2, 7}, {1, 0, 0}, {2, 0, NONE, NONE, NONE, NONE, NONE}},
    {"rule=2\n" TWO AFTERS "land=-\nland=-\n", TWO "floor=0\ndue=-7,100000\n" AFTERS,
     {0, 1, 1, 1, 2, 7}, {1, 0, 0}, {2, 0, NONE, NONE, NONE, NONE, NONE}},
    {"rule=2\n" ONE "after=0\n", ONE "floor=0\ndue=-5\nafter=-\n", {0, 1, 1, 1, 0, 7}, {1, 0, 0}, {1, 0, NONE, NONE, NONE, NONE, NONE}},
    /* At the limits: one trigger, and panels that land as far apart as can be. */
    {"rule=2\npanels=2\ntriggers=1\nlag=100000\nlag=-100000\nafter=-\n",
     "panels=2\ntriggers=1\nlag=100000\nlag=-100000\nfloor=0,0\ndue=-100000\nafter=-\n",
     {200000, 2, 1, 1, 0, 7}, {1, 1, 0}, {1, 0, NONE, NONE, NONE, NONE, NONE}},
};

#define SHEETS (sizeof WORKED / sizeof WORKED[0])

/* Two spaces and an answer. */
static int32_t left[SPACE], right[SPACE];
static int64_t given[ANSWER];

static uint32_t plan(const char *sheet, size_t space_length, size_t answer_length)
{
    untouched(left, given);
    return tuzhelar_plan(bytes(sheet), strlen(sheet), left, space_length, given, answer_length);
}

static uint32_t kept(const char *sheet, size_t answer_length)
{
    untouched(left, given);
    return tuzhelar_kept(bytes(sheet), strlen(sheet), given, answer_length);
}

static uint32_t latest(const char *sheet, const int64_t *times, size_t triggers, size_t space_length)
{
    untouched(left, given);
    return tuzhelar_latest(bytes(sheet), strlen(sheet), times, triggers, left, space_length, given, ANSWER);
}

static uint32_t same(const char *first, const char *second)
{
    untouched(left, given);
    untouched(right, given);
    return tuzhelar_same(bytes(first), strlen(first), bytes(second), strlen(second), left, SPACE, right, SPACE, given, ANSWER);
}

/* A refusal leaves the spaces and the answer. */
static int all_stays(void)
{
    return space_holds(left, left, 0) && answer_holds(given, given, 0);
}

/* Planning of a sheet, for every length of the space and the answer. */
static void planned(const char *sheet, const struct worked *worked)
{
    const int64_t count = worked->answer[3], wide = worked->answer[5];
    const size_t words = (size_t)(count * wide);
    size_t length;
    for (length = 0; length <= SPACE; length++) {
        int holds = length >= words;
        check(sheet, length, plan(sheet, length, ANSWER) == (holds ? TUZHELAR_DONE : TUZHELAR_SPACE));
        check(sheet, length, space_holds(left, worked->words, holds ? words : 0));
        check(sheet, length, holds ? answer_holds(given, worked->answer, TUZHELAR_PLAN_WORDS) : room_holds(given, ANSWER, 3, count, 5, wide));
    }
    for (length = 0; length <= ANSWER; length++) {
        check(sheet, length, plan(sheet, words, length) == TUZHELAR_DONE);
        check(sheet, length, answer_holds(given, worked->answer, least(length, TUZHELAR_PLAN_WORDS)));
        check(sheet, length, plan(sheet, words - 1, length) == TUZHELAR_SPACE && room_holds(given, length, 3, count, 5, wide));
    }
    check(sheet, 0, kept(sheet, ANSWER) == TUZHELAR_DONE && memcmp(given, worked->answer, 3 * sizeof *given) == 0);
    check(sheet, 1, given[4] == worked->kept[0] && given[6] == worked->kept[1] && given[8] == worked->kept[2] && given[10] == 0);
}

/* Each sheet and the one with marks; the two are the same, whichever comes first. */
static void plans(void)
{
    size_t i;
    for (i = 0; i < SHEETS; i++) {
        const struct worked *worked = &WORKED[i];
        const size_t words = (size_t)(worked->answer[3] * worked->answer[5]);
        planned(worked->sheet, worked);
        planned(worked->marked, worked);
        check(worked->sheet, 0, same(worked->sheet, worked->marked) == TUZHELAR_SAME);
        check(worked->sheet, 1, space_holds(left, worked->words, words) && space_holds(right, worked->words, words));
        check(worked->sheet, 2, same(worked->marked, worked->sheet) == TUZHELAR_SAME);
        check(worked->sheet, 3, same(worked->sheet, worked->sheet) == TUZHELAR_SAME);
    }
}

/* The latest landing less the earliest on the whole case, of which 1 is the least. */
static int64_t spread(const int64_t *times)
{
    int64_t first = times[0] + 2 > times[1] ? times[0] + 2 : times[1];
    int64_t second = times[0] + 4 > times[1] + 1 ? times[0] + 4 : times[1] + 1;
    return first > second ? first - second : second - first;
}

static void times(void)
{
    static const int64_t WISHED[2] = {5, 5}, EARLY[2] = {-9, 5}, LATE[2] = {9, 9}, FAR[2] = {3, TUZHELAR_LAST_TIME};
    int64_t at[2];
    for (at[0] = -6; at[0] <= 6; at[0]++) {
        for (at[1] = -6; at[1] <= 6; at[1]++) {
            size_t number = (size_t)(13 * (at[0] + 6) + at[1] + 6);
            check("test", number, tested(SPREAD, at, 2) == (spread(at) == 1 ? TUZHELAR_YES : TUZHELAR_NO));
            check("test, as with marks", number, tested(SPREAD, at, 2) == tested(MARKED, at, 2));
            check("test, in time", number, tested(LAST, at, 2) == (spread(at) == 1 && at[1] <= 5 ? TUZHELAR_YES : TUZHELAR_NO));
        }
    }
    check("latest", 0, latest(SPREAD, WISHED, 2, SPACE) == TUZHELAR_DONE && given[0] == 2 && given[1] == 2 && given[2] == 5);
    check("latest, as given", 0, latest(SPREAD, EARLY, 2, SPACE) == TUZHELAR_DONE && given[1] == -9 && given[2] == 5);
    check("latest, in time", 0, latest(LAST, LATE, 2, SPACE) == TUZHELAR_DONE && given[1] == 2 && given[2] == 5 && given[7] == 8);
    check("latest, a spare trigger", 0, latest(IDLE, FAR, 2, SPACE) == TUZHELAR_DONE && given[1] == 3 && given[2] == TUZHELAR_LAST_TIME);
    check("test, a spare trigger", 0, tested(IDLE, FAR, 2) == TUZHELAR_YES);
    check("latest, 9", 0, latest(SPREAD, WISHED, 2, 13) == TUZHELAR_SPACE && room_holds(given, ANSWER, 0, 2, 7, 7));
}

/* Sheets under different rules, or both under rule 2, on which other timings are tightest. */
static void pairs(void)
{
    static const char WHOLE[] = LAGS "floor=5,2\ndue=1,2\n" AFTERS;
    static const char LATER[] = LAGS "floor=0,0\ndue=-4,0\n" AFTERS;
    static const char OTHER[] = "rule=2\npanels=2\ntriggers=2\nlag=2,0\nlag=4,2\n" AFTERS;
    /* Every landing 10 later. */
    static const char SHIFTED[] = "rule=2\npanels=2\ntriggers=2\nlag=12,10\nlag=14,11\n" AFTERS;
    check("same, other timings", 0, same(SPREAD, WHOLE) == TUZHELAR_DIFFERENT && same(WHOLE, SPREAD) == TUZHELAR_DIFFERENT);
    check("same, other timings", 1, same(SPREAD, LATER) == TUZHELAR_DIFFERENT && same(LATER, SPREAD) == TUZHELAR_DIFFERENT);
    check("same, other timings", 2, same(SPREAD, OTHER) == TUZHELAR_DIFFERENT);
    check("same, later landings", 0, same(SPREAD, SHIFTED) == TUZHELAR_SAME && same(SHIFTED, MARKED) == TUZHELAR_SAME);
    check("same, with and without a last line", 0, same(LAST, MARKED) == TUZHELAR_SAME && given[2] == 8 && given[3] == 7);
    check("same, other spares", 0, same(IDLE, MARKED) == TUZHELAR_UNLIKE && same(SPREAD, IDLE) == TUZHELAR_UNLIKE);
}

/* Every function refuses the sheet with that number, whatever the times, and writes nothing. */
static void refused(const char *sheet, uint32_t number)
{
    static const int64_t BEYOND[7] = {0, INT64_MIN, 0, 0, 0, 0, 0};
    size_t length;
    check(sheet, number, plan(sheet, SPACE, ANSWER) == number && all_stays());
    check(sheet, number, plan(sheet, 0, ANSWER) == number && all_stays());
    check(sheet, number, kept(sheet, ANSWER) == number && all_stays());
    for (length = 0; length <= 7; length++) {
        check(sheet, number, tested(sheet, BEYOND, length) == number);
        check(sheet, number, latest(sheet, BEYOND, length, length) == number && all_stays());
    }
    check(sheet, number, same(sheet, SPREAD) == number && all_stays() && space_holds(right, right, 0));
    check(sheet, number, same(sheet, "") == number && all_stays());
    check(sheet, number, same(SPREAD, sheet) == TUZHELAR_SECOND + number && all_stays() && space_holds(right, right, 0));
    check(sheet, number, same("", sheet) == TUZHELAR_FORM && all_stays());
}

/* The first line is rule=2 and has its line end, or there is no such line. */
static void rule_lines(void)
{
    static const char *const VALUES[] = {"1\n", "02\n", "-\n", "2,2\n", "\n", "3\n", "0\n", "-2\n", "+2\n", " 2\n", "2 \n", "2\r\n", "22\n",
                                         "2,\n", "2\n\n", "2", "", "4294967298\n", "18446744073709551618\n"};
    char sheet[200];
    size_t i;
    for (i = 0; i < sizeof VALUES / sizeof VALUES[0]; i++) {
        sprintf(sheet, "rule=%s%s", VALUES[i], ONE "after=-\n");
        refused(sheet, TUZHELAR_FORM);
        sprintf(sheet, "rule=%s%s", VALUES[i], ONE "floor=0\ndue=0\nafter=-\n");
        refused(sheet, TUZHELAR_FORM);
    }
    refused("rule=2", TUZHELAR_FORM);
    refused("rule=2\n", TUZHELAR_FORM);
    refused("rule=2\nrule=2\n" ONE "after=-\n", TUZHELAR_FORM);
    refused("Rule=2\n" ONE "after=-\n", TUZHELAR_FORM);
    refused("rule=2,\n" ONE "after=-\n", TUZHELAR_FORM);
    refused("\nrule=2\n" ONE "after=-\n", TUZHELAR_FORM);
    refused("panels=1\nrule=2\ntriggers=1\nlag=5\nafter=-\n", TUZHELAR_FORM);
    refused("panels=1\ntriggers=1\nrule=2\nlag=5\nafter=-\n", TUZHELAR_FORM);
    refused("panels=1\ntriggers=1\nlag=5\nrule=2\nafter=-\n", TUZHELAR_FORM);
    refused(ONE "after=-\nrule=2\n", TUZHELAR_FORM);
    refused(ONE "floor=0\ndue=0\nafter=-\nrule=2\n", TUZHELAR_FORM);
}

/* Under rule 2 there are no marks, and without it there are both; all else is read as with marks. */
static void form_refusals(void)
{
    refused("rule=2\n" ONE "floor=0\ndue=-5\nafter=-\n", TUZHELAR_FORM);
    refused("rule=2\n" ONE "floor=0\nafter=-\n", TUZHELAR_FORM);
    refused("rule=2\n" ONE "due=-5\nafter=-\n", TUZHELAR_FORM);
    refused(ONE "after=-\n", TUZHELAR_FORM);
    refused(ONE "due=0\nafter=-\n", TUZHELAR_FORM);
    refused(ONE "floor=0\nafter=-\n", TUZHELAR_FORM);
    refused("rule=2\npanels=7\n", TUZHELAR_SIZE);
    refused("rule=2\npanels=1\ntriggers=0\n", TUZHELAR_SIZE);
    refused("rule=2\npanels=1\ntriggers=1\nlag=100001\n", TUZHELAR_RANGE);
    refused("rule=2\n" ONE "after=-100001\nland=", TUZHELAR_RANGE);
    refused("rule=2\n" ONE "after=-\nland=x\n", TUZHELAR_FORM);
    refused("rule=2\n" ONE "after=-\nland=-\nlast=-\n", TUZHELAR_NO_DUE);
    refused("rule=2\n" ONE "after=-\nlast=1\nland=-\n", TUZHELAR_FORM);
    refused("rule=2\npanels=1\ntriggers=1\nlag=-\nafter=-\n", TUZHELAR_NO_LAG);
}

/* A trigger that is not spare and has no lag: by an entry of any kind, after reading's other refusals and before all else. */
static void lagless_refusals(void)
{
    refused("rule=2\n" TWO "after=-,-\nafter=-9,-\n", TUZHELAR_NO_TRIGGER_LAG);
    refused("rule=2\n" TWO "after=-,-9\nafter=-,-\n", TUZHELAR_NO_TRIGGER_LAG);
    refused("rule=2\n" TWO "after=-,-\nafter=-,0\n", TUZHELAR_NO_TRIGGER_LAG);
    refused("rule=2\n" TWO AFTERS "land=-\nland=-9\n", TUZHELAR_NO_TRIGGER_LAG);
    refused("rule=2\n" TWO "after=-,-\nafter=-,0\nlast=-100000\n", TUZHELAR_NO_TRIGGER_LAG);
    /* No times keep the order either. */
    refused("rule=2\n" TWO "after=-,-\nafter=-,1\n", TUZHELAR_NO_TRIGGER_LAG);
    refused("rule=2\n" TWO "after=1,-\nafter=-,0\n", TUZHELAR_NO_TRIGGER_LAG);
    refused("rule=2\npanels=1\ntriggers=2\nlag=-,-\nafter=-,-\nafter=-,0\n", TUZHELAR_NO_LAG);
    refused("rule=2\n" TWO "after=-,-\nafter=-,0\nx", TUZHELAR_FORM);
    refused("rule=2\n" TWO "after=-,-\nafter=-,0\nlast=100001\n", TUZHELAR_RANGE);
    refused("rule=2\n" TWO "after=-,-\nafter=-,0\nlast=-\n", TUZHELAR_NO_DUE);
    /* With marks such a trigger is good. */
    check("a lagless trigger with marks", 0, plan(TWO "floor=0\ndue=0,0\nafter=-,-\nafter=-,0\n", SPACE, ANSWER) == TUZHELAR_DONE);
}

/* Where reading refuses nothing come 10, 11 and 8, as ever. */
static void later_refusals(void)
{
    static const char CIRCLE[] = "rule=2\n" ONE "after=1\n", WAITING[] = "rule=2\n" ONE "after=-\nland=-4\n";
    int64_t at[2] = {0, 0};
    check("8", 0, plan(CIRCLE, SPACE, ANSWER) == TUZHELAR_ORDER && kept(CIRCLE, ANSWER) == TUZHELAR_ORDER && all_stays());
    check("8", 1, plan(WAITING, SPACE, ANSWER) == TUZHELAR_ORDER && tested(WAITING, at, 1) == TUZHELAR_ORDER);
    check("10 before 8", 0, tested(CIRCLE, at, 2) == TUZHELAR_COMPONENTS && latest(CIRCLE, at, 2, SPACE) == TUZHELAR_COMPONENTS);
    at[0] = (int64_t)TUZHELAR_LAST_TIME + 1;
    check("11 before 8", 0, tested(CIRCLE, at, 1) == TUZHELAR_TIME && latest(CIRCLE, at, 1, SPACE) == TUZHELAR_TIME && all_stays());
}

/* Sheets of every length, cut short or with line ends behind them: one alone is good. */
static void lengths(void)
{
    static char sheet[TUZHELAR_SHEET_BYTES + 2];
    size_t length;
    memset(sheet, '\n', sizeof sheet);
    memcpy(sheet, SPREAD, strlen(SPREAD));
    for (length = 0; length <= sizeof sheet; length++) {
        uint32_t wanted = length > TUZHELAR_SHEET_BYTES ? TUZHELAR_TOO_LONG : length == strlen(SPREAD) ? TUZHELAR_DONE : TUZHELAR_FORM;
        check("sheet of this length", length, tuzhelar_kept_table(sheet, length).refusal == wanted);
    }
}

/* The layer hands 14 on as any other refusal, and says what it means. */
static void layer(void)
{
    static const char LAGLESS[] = "rule=2\n" TWO "after=-,-\nafter=-,0\n";
    const size_t length = strlen(LAGLESS);
    const int64_t at[2] = {0, 0};
    struct tuzhelar_planned found;
    struct tuzhelar_compared compared;
    untouched(left, given);
    untouched(right, given);
    found = tuzhelar_plan_sheet(LAGLESS, length, left, SPACE);
    check("layer, plan", 0, found.refusal == TUZHELAR_NO_TRIGGER_LAG && found.count == 0 && found.spares == 0 && found.line_words == 0);
    check("layer, kept", 0, tuzhelar_kept_table(LAGLESS, length).refusal == TUZHELAR_NO_TRIGGER_LAG);
    check("layer, test", 0, tuzhelar_test_timing(LAGLESS, length, NULL, 0) == TUZHELAR_NO_TRIGGER_LAG);
    check("layer, latest", 0, tuzhelar_latest_timing(LAGLESS, length, at, 2, left, SPACE).refusal == TUZHELAR_NO_TRIGGER_LAG);
    compared = tuzhelar_same_timings(SPREAD, strlen(SPREAD), LAGLESS, length, left, SPACE, right, SPACE);
    check("layer, same", 0, compared.number == 214 && compared.first == 0 && compared.second == 0 && all_stays());
    check("layer, meaning", 0, strcmp(tuzhelar_same_meaning(214), tuzhelar_meaning(TUZHELAR_NO_TRIGGER_LAG)) == 0);
    found = tuzhelar_plan_sheet(SPREAD, strlen(SPREAD), left, SPACE);
    check("layer, plan", 1, found.refusal == TUZHELAR_DONE && found.deviation == 1 && found.count == 2);
    check("layer, component", 0, tuzhelar_component(left, found.line_words, 0, 0) == NONE && tuzhelar_component(left, 7, 1, 0) == -3);
}

int main(void)
{
    plans();
    times();
    pairs();
    rule_lines();
    form_refusals();
    lagless_refusals();
    later_refusals();
    lengths();
    layer();
    return summed();
}
