/*
 * Sheets with a last line: their lists with a cap behind each line, for every length of space and answer; testing and the latest times, which
 * are about times in time; comparing, which is not; refusals; and the layer of embed/c/tuzhelar.h. Prints each case that fails; the last line
 * is 'N passed, M failed'. Also C++.
 */
#include "edges.h"

#define FRONT "panels=2\ntriggers=2\nlag=2,0\nlag=4,1\nfloor=5,2\ndue=1,2\nafter=-,-\nafter=-,-\n"
#define ONE "panels=1\ntriggers=1\nlag=5\nfloor=0\ndue=0\nafter=-\n"

static const char WHOLE[] = FRONT;
static const char LAST[] = FRONT "last=6,6\n";
static const char EARLIER[] = FRONT "last=-100000,0\n";
/* Panel 2 has no floor, and trigger 1 does not reach it. */
static const char NO_FLOOR[] = "panels=2\ntriggers=2\nlag=0,-\nlag=-,0\nfloor=0,-\ndue=0,0\nafter=-,-\nafter=-,-\nlast=10,3\n";
static const char IDLE[] = "panels=1\ntriggers=2\nlag=0,-\nfloor=0\ndue=0,-7\nafter=-,-\nafter=-,-\nlast=4\n";
/* Example 6 of the paper, its rule written as marks. */
static const char EXAMPLE_6[] = "panels=3\ntriggers=3\nlag=3,-1,-\nlag=-2,2,0\nlag=-1,-,4\nfloor=0,0,0\ndue=-3,-2,-4\nafter=-,-,-3\n"
                                "after=2,-,-\nafter=1,-2,-\nland=-,-,-\nland=0,-,-3\nland=-1,-,-\nlast=7,7,7\n";

/* A sheet, planning's answer, and its lines with their caps. */
struct worked {
    const char *sheet;
    int64_t answer[TUZHELAR_PLAN_WORDS];
    int32_t lines[2][TUZHELAR_CAPPED_WORDS];
};

static const struct worked WORKED[] = {
    {LAST, {2, 2, 1, 2, 0, 8}, {{2, -1, 0, NONE, NONE, NONE, NONE, 3}, {2, 0, NONE, NONE, NONE, NONE, NONE, 2}}},
    {FRONT "land=-,-\nland=-,-\nlast=6,6\n",
     {2, 2, 1, 2, 0, 8}, {{2, -1, 0, NONE, NONE, NONE, NONE, 3}, {2, 0, NONE, NONE, NONE, NONE, NONE, 2}}},
    {EARLIER, {2, 2, 1, 2, 0, 8}, {{2, -1, 0, NONE, NONE, NONE, NONE, -100001}, {2, 0, NONE, NONE, NONE, NONE, NONE, -100002}}},
    {EXAMPLE_6, {3, 6, 2, 2, 0, 8}, {{3, -5, 0, -2, NONE, NONE, NONE, 5}, {3, -3, 0, -1, NONE, NONE, NONE, 4}}},
    /* The first line does not reach panel 2, whose moment counts for the second though it has no floor. */
    {NO_FLOOR, {0, 1, 1, 2, 0, 8}, {{2, 0, NONE, NONE, NONE, NONE, NONE, 10}, {2, 0, 0, NONE, NONE, NONE, NONE, 3}}},
    {IDLE, {0, 1, 1, 1, 2, 8}, {{2, 0, NONE, NONE, NONE, NONE, NONE, 4}, {0}}},
    {ONE "last=-3\n", {-5, 1, 1, 1, 0, 8}, {{1, 0, NONE, NONE, NONE, NONE, NONE, -8}, {0}}},
    /* At the limits. */
    {"panels=1\ntriggers=1\nlag=100000\nfloor=0\ndue=0\nafter=-\nlast=-100000\n",
     {-100000, 1, 1, 1, 0, 8}, {{1, 0, NONE, NONE, NONE, NONE, NONE, -200000}, {0}}},
    {"panels=1\ntriggers=1\nlag=-100000\nfloor=0\ndue=0\nafter=-\nlast=100000\n",
     {100000, 1, 1, 1, 0, 8}, {{1, 0, NONE, NONE, NONE, NONE, NONE, 200000}, {0}}},
};

/* Two spaces and an answer. */
static int32_t left[SPACE], right[SPACE];
static int64_t given[ANSWER];

static uint32_t plan(const char *sheet, size_t space_length, size_t answer_length)
{
    untouched(left, given);
    return tuzhelar_plan(bytes(sheet), strlen(sheet), left, space_length, given, answer_length);
}

static uint32_t latest(const char *sheet, const int64_t *times, size_t triggers, size_t space_length, size_t answer_length)
{
    untouched(left, given);
    return tuzhelar_latest(bytes(sheet), strlen(sheet), times, triggers, left, space_length, given, answer_length);
}

static uint32_t same(const char *first, const char *second, size_t left_length, size_t right_length)
{
    untouched(left, given);
    untouched(right, given);
    return tuzhelar_same(bytes(first), strlen(first), bytes(second), strlen(second), left, left_length, right, right_length, given, ANSWER);
}

/* Planning of each, for every length of the space and the answer: room is by eight words. */
static void plans(void)
{
    size_t i, length;
    for (i = 0; i < sizeof WORKED / sizeof WORKED[0]; i++) {
        const struct worked *worked = &WORKED[i];
        const char *sheet = worked->sheet;
        const size_t words = TUZHELAR_CAPPED_WORDS * (size_t)worked->answer[3];
        for (length = 0; length <= SPACE; length++) {
            int holds = length >= words;
            check(sheet, length, plan(sheet, length, ANSWER) == (holds ? TUZHELAR_DONE : TUZHELAR_SPACE));
            check(sheet, length, space_holds(left, worked->lines[0], holds ? words : 0));
            check(sheet, length, holds ? answer_holds(given, worked->answer, TUZHELAR_PLAN_WORDS)
                                       : room_holds(given, ANSWER, 3, worked->answer[3], 5, TUZHELAR_CAPPED_WORDS));
        }
        for (length = 0; length <= ANSWER; length++) {
            check(sheet, length, plan(sheet, words, length) == TUZHELAR_DONE);
            check(sheet, length, answer_holds(given, worked->answer, least(length, TUZHELAR_PLAN_WORDS)));
            check(sheet, length, plan(sheet, words - 1, length) == TUZHELAR_SPACE);
            check(sheet, length, room_holds(given, length, 3, worked->answer[3], 5, TUZHELAR_CAPPED_WORDS));
        }
    }
}

/* Times with weights up to the caps are tightest and in time; with more they are late, and without a last line tightest. */
static void tests(void)
{
    int64_t times[2];
    int64_t first, second;
    for (first = -3; first <= 6; first++) {
        for (second = -3; second <= 6; second++) {
            size_t number = (size_t)(10 * (first + 3) + second + 3);
            times[0] = first - 1 > second ? first - 1 : second;
            times[1] = first;
            check("test, weights", number, tested(LAST, times, 2) == (first <= 3 && second <= 2 ? TUZHELAR_YES : TUZHELAR_NO));
            check("test, without the last line", number, tested(WHOLE, times, 2) == TUZHELAR_YES);
        }
    }
    times[0] = 0;
    times[1] = 2;
    check("test, in time and not tightest", 0, tested(LAST, times, 2) == TUZHELAR_NO);
    times[0] = 3;
    times[1] = 4;
    check("test, no floor", 0, tested(NO_FLOOR, times, 2) == TUZHELAR_NO);
    times[1] = 3;
    check("test, no floor", 1, tested(NO_FLOOR, times, 2) == TUZHELAR_YES);
    times[0] = 4;
    times[1] = TUZHELAR_LAST_TIME;
    check("test, a spare trigger is never late", 0, tested(IDLE, times, 2) == TUZHELAR_YES);
    times[0] = 5;
    check("test, a spare trigger is never late", 1, tested(IDLE, times, 2) == TUZHELAR_NO);
    check("test, 10", 0, tested(LAST, times, 1) == TUZHELAR_COMPONENTS);
    times[0] = (int64_t)TUZHELAR_LAST_TIME + 1;
    check("test, 11", 0, tested(LAST, times, 2) == TUZHELAR_TIME);
}

/* Times given, and the latest that are tightest and in time. */
struct wished {
    const char *sheet;
    int64_t times[2], found[2];
};

static const struct wished WISHED[] = {
    {LAST, {5, 9}, {2, 3}},
    {LAST, {2, 3}, {2, 3}},
    {LAST, {0, 9}, {0, 1}},
    {LAST, {9, -4}, {2, -4}},
    {LAST, {TUZHELAR_LAST_TIME, TUZHELAR_LAST_TIME}, {2, 3}},
    {LAST, {-TUZHELAR_LAST_TIME, 0}, {-TUZHELAR_LAST_TIME, 1 - TUZHELAR_LAST_TIME}},
    {EARLIER, {0, 0}, {-100002, -100001}},
    {NO_FLOOR, {9, 9}, {9, 3}},
    {NO_FLOOR, {99, 99}, {10, 3}},
    /* A spare trigger's time is handed back, however late. */
    {IDLE, {9, TUZHELAR_LAST_TIME}, {4, TUZHELAR_LAST_TIME}},
    {IDLE, {3, -7}, {3, -7}},
};

static const struct worked *worked_on(const char *sheet)
{
    const struct worked *worked = WORKED;
    while (worked->sheet != sheet) {
        worked++;
    }
    return worked;
}

static void latest_times(void)
{
    size_t i, length;
    for (i = 0; i < sizeof WISHED / sizeof WISHED[0]; i++) {
        const struct wished *wished = &WISHED[i];
        const struct worked *worked = worked_on(wished->sheet);
        const int64_t count = worked->answer[3], *found = wished->found;
        const int64_t wanted[TUZHELAR_LATEST_WORDS] = {count, found[0], found[1], 0, 0, 0, 0, TUZHELAR_CAPPED_WORDS};
        const size_t words = TUZHELAR_CAPPED_WORDS * (size_t)count;
        for (length = 0; length <= ANSWER; length++) {
            check("latest", i, latest(wished->sheet, wished->times, 2, SPACE, length) == TUZHELAR_DONE);
            check("latest, the space", i, space_holds(left, worked->lines[0], words));
            check("latest, the answer", i, answer_holds(given, wanted, least(length, TUZHELAR_LATEST_WORDS)));
            check("latest, 9", i, latest(wished->sheet, wished->times, 2, words - 1, length) == TUZHELAR_SPACE);
            check("latest, 9, the answer", i, room_holds(given, length, 0, count, 7, TUZHELAR_CAPPED_WORDS));
            check("latest, 9, the space", i, space_holds(left, worked->lines[0], 0));
        }
        check("latest, tested", i, tested(wished->sheet, found, 2) == TUZHELAR_YES);
    }
}

/* Two lists with other caps, or of which one has none, are the same. Room is by each sheet's own words. */
static void pairs(void)
{
    static const char OTHER[] = "panels=2\ntriggers=2\nlag=2,0\nlag=4,1\nfloor=5,2\ndue=1,3\nafter=-,-\nafter=-,-\nlast=6,6\n";
    static const int32_t LINES[2 * TUZHELAR_LINE_WORDS] = {
        2, -1, 0, NONE, NONE, NONE, NONE, 2, 0, NONE, NONE, NONE, NONE, NONE,
    };
    static const int64_t CAPPED[TUZHELAR_SAME_WORDS] = {2, 2, 8, 8}, FIRST_CAPPED[TUZHELAR_SAME_WORDS] = {2, 2, 8, 7};
    static const int64_t SECOND_CAPPED[TUZHELAR_SAME_WORDS] = {2, 2, 7, 8};
    const int32_t *capped = WORKED[0].lines[0], *earlier = WORKED[2].lines[0];
    const size_t lines = 2 * TUZHELAR_LINE_WORDS, wide = 2 * TUZHELAR_CAPPED_WORDS;
    check("same, with and without", 0, same(LAST, WHOLE, SPACE, SPACE) == TUZHELAR_SAME && answer_holds(given, FIRST_CAPPED, 4));
    check("same, with and without", 1, space_holds(left, capped, wide) && space_holds(right, LINES, lines));
    check("same, without and with", 0, same(WHOLE, LAST, SPACE, SPACE) == TUZHELAR_SAME && answer_holds(given, SECOND_CAPPED, 4));
    check("same, without and with", 1, space_holds(left, LINES, lines) && space_holds(right, capped, wide));
    check("same, other caps", 0, same(LAST, EARLIER, SPACE, SPACE) == TUZHELAR_SAME && answer_holds(given, CAPPED, 4));
    check("same, other caps", 1, space_holds(left, capped, wide) && space_holds(right, earlier, wide));
    check("same, other timings", 0, same(LAST, OTHER, SPACE, SPACE) == TUZHELAR_DIFFERENT);
    check("same, other spares", 0, same(IDLE, NO_FLOOR, SPACE, SPACE) == TUZHELAR_UNLIKE);
    check("same, just enough", 0, same(LAST, WHOLE, wide, lines) == TUZHELAR_SAME);
    check("same, 9", 0, same(LAST, WHOLE, wide - 1, lines) == 9 && room_holds(given, ANSWER, 0, 2, 2, 8));
    check("same, 9, the spaces", 0, space_holds(left, capped, 0) && space_holds(right, capped, 0));
    check("same, 209", 0, same(WHOLE, LAST, lines, wide - 1) == 209 && room_holds(given, ANSWER, 1, 2, 3, 8));
    check("same, 209, the spaces", 0, space_holds(left, capped, 0) && space_holds(right, capped, 0));
}

/* The kept table does not look at last moments. */
static void kept(void)
{
    int64_t without[ANSWER];
    untouched(left, given);
    untouched(left, without);
    check("kept", 0, tuzhelar_kept(bytes(WHOLE), strlen(WHOLE), without, ANSWER) == TUZHELAR_DONE);
    check("kept", 1, tuzhelar_kept(bytes(EARLIER), strlen(EARLIER), given, ANSWER) == TUZHELAR_DONE);
    check("kept", 2, memcmp(given, without, sizeof given) == 0);
}

/* Every function refuses the sheet with that number, and writes nothing. */
static void refused(const char *sheet, uint32_t number)
{
    const int64_t times[1] = {0};
    check(sheet, number, plan(sheet, SPACE, ANSWER) == number && space_holds(left, left, 0) && answer_holds(given, given, 0));
    check(sheet, number, tuzhelar_kept(bytes(sheet), strlen(sheet), given, ANSWER) == number && answer_holds(given, given, 0));
    check(sheet, number, tested(sheet, times, 1) == number);
    check(sheet, number, latest(sheet, times, 1, SPACE, ANSWER) == number && space_holds(left, left, 0) && answer_holds(given, given, 0));
    check(sheet, number, same(sheet, WHOLE, SPACE, SPACE) == number && same(WHOLE, sheet, SPACE, SPACE) == TUZHELAR_SECOND + number);
}

/* In the last line 2 before 4 before 5; all of them before 6 and 7; then 8. */
static void refusals(void)
{
    refused(ONE "last=\n", TUZHELAR_FORM);
    refused(ONE "last=1", TUZHELAR_FORM);
    refused(ONE "last=1,2\n", TUZHELAR_FORM);
    refused(ONE "last=-0\n", TUZHELAR_FORM);
    refused(ONE "Last=1\n", TUZHELAR_FORM);
    refused(ONE "last=1\nlast=1\n", TUZHELAR_FORM);
    refused(ONE "last=1\nland=-\n", TUZHELAR_FORM);
    refused(ONE "land=-\nlast=1\nland=-\n", TUZHELAR_FORM);
    refused(ONE "last=1\n\n", TUZHELAR_FORM);
    refused(FRONT "last=6\n", TUZHELAR_FORM);
    refused(FRONT "land=-,-\nlast=6,6\n", TUZHELAR_FORM);
    refused(FRONT "last=-,x\n", TUZHELAR_FORM);
    refused(FRONT "last=100001,x\n", TUZHELAR_FORM);
    refused(FRONT "last=-,100001\n", TUZHELAR_RANGE);
    refused(FRONT "last=6,-100001\nland=", TUZHELAR_RANGE);
    refused(FRONT "last=6,-\n", TUZHELAR_NO_DUE);
    refused(FRONT "last=-,6\nlast=6,6\n", TUZHELAR_NO_DUE);
    refused("panels=1\ntriggers=1\nlag=-\nfloor=-\ndue=0\nafter=-\nlast=-\n", TUZHELAR_NO_DUE);
    refused("panels=1\ntriggers=1\nlag=-\nfloor=-\ndue=0\nafter=-\nlast=1\nx", TUZHELAR_FORM);
    refused("panels=1\ntriggers=1\nlag=-\nfloor=-\ndue=0\nafter=-\nlast=1\n", TUZHELAR_NO_LAG);
    refused("panels=1\ntriggers=1\nlag=5\nfloor=-\ndue=0\nafter=-\nlast=1\n", TUZHELAR_NO_FLOOR);
    refused("panels=1\ntriggers=1\nlag=5\nfloor=0\ndue=0\nafter=1\nlast=1\n", TUZHELAR_ORDER);
    refused("panels=1\ntriggers=1\nlag=5\nfloor=0\ndue=0\nafter=-\nland=-4\nlast=1\n", TUZHELAR_ORDER);
}

/* The layer says how many words a line takes, also where the space has too few. */
static void layer(void)
{
    const int64_t wished[2] = {5, 9};
    struct tuzhelar_planned planned = tuzhelar_plan_sheet(LAST, strlen(LAST), left, SPACE);
    struct tuzhelar_reached reached;
    struct tuzhelar_compared compared;
    check("plan", 0, planned.refusal == TUZHELAR_DONE && planned.count == 2 && planned.line_words == TUZHELAR_CAPPED_WORDS);
    check("component", 0, tuzhelar_component(left, planned.line_words, 1, 0) == 0 && tuzhelar_component(left, 8, 0, 0) == -1);
    check("component", 1, tuzhelar_component(left, planned.line_words, 1, 1) == NONE && tuzhelar_component(left, 8, 0, 1) == 0);
    check("cap", 0, tuzhelar_cap(left, 0) == 3 && tuzhelar_cap(left, 1) == 2);
    planned = tuzhelar_plan_sheet(LAST, strlen(LAST), NULL, SPACE);
    check("no space", 0, planned.refusal == TUZHELAR_SPACE && planned.count == 2 && planned.line_words == TUZHELAR_CAPPED_WORDS);
    reached = tuzhelar_latest_timing(LAST, strlen(LAST), wished, 2, left, SPACE);
    check("latest", 0, reached.refusal == TUZHELAR_DONE && reached.count == 2 && reached.line_words == TUZHELAR_CAPPED_WORDS);
    check("latest", 1, reached.times[0] == 2 && reached.times[1] == 3 && reached.times[2] == 0);
    reached = tuzhelar_latest_timing(LAST, strlen(LAST), wished, 2, left, 15);
    check("latest, 9", 0, reached.refusal == TUZHELAR_SPACE && reached.count == 2 && reached.line_words == TUZHELAR_CAPPED_WORDS);
    compared = tuzhelar_same_timings(LAST, strlen(LAST), WHOLE, strlen(WHOLE), left, SPACE, right, SPACE);
    check("two sheets", 0, compared.number == TUZHELAR_SAME && compared.first_words == 8 && compared.second_words == 7);
    compared = tuzhelar_same_timings(WHOLE, strlen(WHOLE), LAST, strlen(LAST), left, SPACE, right, 15);
    check("two sheets", 1, compared.number == 209 && compared.second == 2 && compared.first_words == 0 && compared.second_words == 8);
}

int main(void)
{
    plans();
    tests();
    latest_times();
    pairs();
    kept();
    refusals();
    layer();
    return summed();
}
