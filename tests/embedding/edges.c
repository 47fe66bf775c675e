/*
 * What embed/c/tuzhelar.h says of lengths, null pointers and overlaps, case by case; sheets with land lines, and with spare triggers; the
 * longest sheet. Prints each case that fails; the last line is 'N passed, M failed'. Also C++.
 */
#include "edges.h"

#include <stdlib.h>

#define LONGEST 1133 /* bytes of a good sheet, at most */

static const char WHOLE[] = "panels=2\ntriggers=2\nlag=2,0\nlag=4,1\nfloor=5,2\ndue=1,2\nafter=-,-\nafter=-,-\n";
static const char CIRCLE[] = "panels=1\ntriggers=1\nlag=5\nfloor=0\ndue=0\nafter=1\n";
/* The whole case with its panels exchanged, with another due mark, and a sheet of one trigger. */
static const char EXCHANGED[] = "panels=2\ntriggers=2\nlag=4,1\nlag=2,0\nfloor=2,5\ndue=1,2\nafter=-,-\nafter=-,-\n";
static const char LATER[] = "panels=2\ntriggers=2\nlag=2,0\nlag=4,1\nfloor=5,2\ndue=1,3\nafter=-,-\nafter=-,-\n";
static const char ONE[] = "panels=1\ntriggers=1\nlag=5\nfloor=0\ndue=0\nafter=-\n";
/* Trigger 2 comes at least 1 after trigger 1. */
static const char AFTER[] = "panels=1\ntriggers=2\nlag=0,0\nfloor=0\ndue=0,0\nafter=-,-\nafter=1,-\n";
/* The whole case, where trigger 2 waits for panel 2: it comes at most 5 before that lands. An after rule says the same of the triggers. */
static const char WAITING[] =
    "panels=2\ntriggers=2\nlag=2,0\nlag=4,1\nfloor=5,2\ndue=1,2\nafter=-,-\nafter=-,-\nland=-,-\nland=-,-5\n";
static const char BEHIND[] = "panels=2\ntriggers=2\nlag=2,0\nlag=4,1\nfloor=5,2\ndue=1,2\nafter=-,-\nafter=-1,-\n";
/* The whole case with land lines that hold no rule. */
static const char NO_WAIT[] =
    "panels=2\ntriggers=2\nlag=2,0\nlag=4,1\nfloor=5,2\ndue=1,2\nafter=-,-\nafter=-,-\nland=-,-\nland=-,-\n";
static const int32_t LINES[2 * TUZHELAR_LINE_WORDS] = {
    2, -1, 0,               TUZHELAR_ABSENT, TUZHELAR_ABSENT, TUZHELAR_ABSENT, TUZHELAR_ABSENT,
    2, 0,  TUZHELAR_ABSENT, TUZHELAR_ABSENT, TUZHELAR_ABSENT, TUZHELAR_ABSENT, TUZHELAR_ABSENT,
};
static const int32_t LATER_LINES[2 * TUZHELAR_LINE_WORDS] = {
    2, TUZHELAR_ABSENT, 0,               TUZHELAR_ABSENT, TUZHELAR_ABSENT, TUZHELAR_ABSENT, TUZHELAR_ABSENT,
    2, 0,               TUZHELAR_ABSENT, TUZHELAR_ABSENT, TUZHELAR_ABSENT, TUZHELAR_ABSENT, TUZHELAR_ABSENT,
};
static const int32_t WAITING_LINES[2 * TUZHELAR_LINE_WORDS] = {
    2, -1, 0,  TUZHELAR_ABSENT, TUZHELAR_ABSENT, TUZHELAR_ABSENT, TUZHELAR_ABSENT,
    2, 0,  -1, TUZHELAR_ABSENT, TUZHELAR_ABSENT, TUZHELAR_ABSENT, TUZHELAR_ABSENT,
};
static const int32_t ONE_LINE[TUZHELAR_LINE_WORDS] = {
    1, 0, TUZHELAR_ABSENT, TUZHELAR_ABSENT, TUZHELAR_ABSENT, TUZHELAR_ABSENT, TUZHELAR_ABSENT,
};
static const int64_t TWO_AND_TWO[TUZHELAR_SAME_WORDS] = {2, 2, 7, 7}, TWO_AND_ONE[TUZHELAR_SAME_WORDS] = {2, 1, 7, 7};
static const int64_t PLANNED[TUZHELAR_PLAN_WORDS] = {2, 2, 1, 2, 0, 7};
static const int64_t KEPT[TUZHELAR_KEPT_WORDS] = {2, 2, 1, 2, 1, 1, 3, 2, 0, 0, 0, 0, 0, 0, 0, 0};
static const int64_t WISHED[TUZHELAR_MOST] = {0, 2, 0, 0, 0, 0};
static const int64_t LATEST[TUZHELAR_LATEST_WORDS] = {2, 0, 1, 0, 0, 0, 0, 7};

/* The proved functions, for every length of the space, the answer and the times. */
static void lengths(void)
{
    int32_t space[SPACE];
    int64_t answer[ANSWER], times[ANSWER];
    size_t length;
    for (length = 0; length <= SPACE; length++) {
        uint32_t wanted = length < 2 * TUZHELAR_LINE_WORDS ? TUZHELAR_SPACE : TUZHELAR_DONE;
        untouched(space, answer);
        check("plan, words of space", length,
              tuzhelar_plan(bytes(WHOLE), strlen(WHOLE), space, length, answer, ANSWER) == wanted);
        check("plan, the space", length, space_holds(space, LINES, wanted == TUZHELAR_DONE ? 2 * TUZHELAR_LINE_WORDS : 0));
        check("plan, the answer beside it", length,
              wanted == TUZHELAR_DONE ? answer_holds(answer, PLANNED, TUZHELAR_PLAN_WORDS) : room_holds(answer, ANSWER, 3, 2, 5, 7));
    }
    for (length = 0; length <= ANSWER; length++) {
        untouched(space, answer);
        check("plan, words of answer", length,
              tuzhelar_plan(bytes(WHOLE), strlen(WHOLE), space, SPACE, answer, length) == TUZHELAR_DONE);
        check("plan, the answer", length, answer_holds(answer, PLANNED, least(length, TUZHELAR_PLAN_WORDS)));
        check("plan, the space beside it", length, space_holds(space, LINES, 2 * TUZHELAR_LINE_WORDS));
        untouched(space, answer);
        check("kept, words of answer", length, tuzhelar_kept(bytes(WHOLE), strlen(WHOLE), answer, length) == TUZHELAR_DONE);
        check("kept, the answer", length, answer_holds(answer, KEPT, least(length, TUZHELAR_KEPT_WORDS)));
        untouched(space, answer);
        check("plan, 8", length, tuzhelar_plan(bytes(CIRCLE), strlen(CIRCLE), space, SPACE, answer, length) == TUZHELAR_ORDER);
        check("plan, 8, the answer", length, answer_holds(answer, PLANNED, 0));
        check("plan, 8, the space", length, space_holds(space, LINES, 0));
        check("kept, 8", length, tuzhelar_kept(bytes(CIRCLE), strlen(CIRCLE), answer, length) == TUZHELAR_ORDER);
        check("kept, 8, the answer", length, answer_holds(answer, KEPT, 0));
    }
    /* As many times are tested as are lent: 0,2 is not tightest, and any other number of times is 10, though 0 or 0,0 could be made of them. */
    for (length = 0; length <= ANSWER; length++) {
        size_t i;
        for (i = 0; i < ANSWER; i++) {
            times[i] = i < 2 ? (int64_t)(2 * i) : INT64_MAX;
        }
        check("test, times lent", length, tested(WHOLE, times, length) == (length == 2 ? TUZHELAR_NO : TUZHELAR_COMPONENTS));
        times[1] = 0;
        check("test, zeros lent", length, tested(WHOLE, times, length) == (length == 2 ? TUZHELAR_YES : TUZHELAR_COMPONENTS));
        check("test, times lent for one trigger", length, tested(CIRCLE, times, length) == (length == 1 ? TUZHELAR_ORDER : TUZHELAR_COMPONENTS));
    }
    times[1] = TUZHELAR_LAST_TIME;
    check("test, a time at the limit", 0, tested(WHOLE, times, 2) == TUZHELAR_NO);
    times[1] = (int64_t)TUZHELAR_LAST_TIME + 1;
    check("test, a time beyond it", 0, tested(WHOLE, times, 2) == TUZHELAR_TIME);
    times[1] = INT64_MIN;
    check("test, the least time", 0, tested(WHOLE, times, 2) == TUZHELAR_TIME);
    check("test, 10 before 11", 0, tested(WHOLE, times, 3) == TUZHELAR_COMPONENTS);
    times[0] = INT64_MIN;
    check("test, 11 before 8", 0, tested(CIRCLE, times, 1) == TUZHELAR_TIME);
}

/* A space and an answer, for the latest times. */
static int32_t listed[SPACE];
static int64_t reached[ANSWER];

static uint32_t latest(const char *sheet, const int64_t *times, size_t times_length, size_t space_length, size_t answer_length)
{
    untouched(listed, reached);
    return tuzhelar_latest(bytes(sheet), strlen(sheet), times, times_length, listed, space_length, reached, answer_length);
}

/* A refusal leaves the space and the answer; 9 gives the count needed, here 2, and the words of a line. */
static int all_stays(void)
{
    return space_holds(listed, LINES, 0) && answer_holds(reached, LATEST, 0);
}

static int gives_room(size_t answer_length, int64_t words)
{
    return space_holds(listed, LINES, 0) && room_holds(reached, answer_length, 0, 2, 7, words);
}

/* The latest times, for every length of the space and the answer. */
static void reaching(void)
{
    const size_t lines = 2 * TUZHELAR_LINE_WORDS;
    size_t length;
    for (length = 0; length <= SPACE; length++) {
        int holds = length >= lines;
        check("latest, words of space", length, latest(WHOLE, WISHED, 2, length, ANSWER) == (holds ? TUZHELAR_DONE : TUZHELAR_SPACE));
        check("latest, the space", length, holds ? space_holds(listed, LINES, lines) : gives_room(ANSWER, 7));
        check("latest, the answer beside it", length, !holds || answer_holds(reached, LATEST, TUZHELAR_LATEST_WORDS));
        check("latest, 8 before 9", length, latest(CIRCLE, WISHED, 1, length, ANSWER) == TUZHELAR_ORDER && all_stays());
        check("latest, 10 before 9", length, latest(WHOLE, WISHED, 3, length, ANSWER) == TUZHELAR_COMPONENTS && all_stays());
    }
    for (length = 0; length <= ANSWER; length++) {
        check("latest, words of answer", length, latest(WHOLE, WISHED, 2, SPACE, length) == TUZHELAR_DONE);
        check("latest, the answer", length, answer_holds(reached, LATEST, least(length, TUZHELAR_LATEST_WORDS)));
        check("latest, the space beside it", length, space_holds(listed, LINES, lines));
        check("latest, 9", length, latest(WHOLE, WISHED, 2, lines - 1, length) == TUZHELAR_SPACE && gives_room(length, 7));
        check("latest, no space", length, latest(WHOLE, WISHED, 2, 0, length) == TUZHELAR_SPACE && gives_room(length, 7));
        check("latest, 2", length, latest("", WISHED, 2, SPACE, length) == TUZHELAR_FORM && all_stays());
        check("latest, 8", length, latest(CIRCLE, WISHED, 1, SPACE, length) == TUZHELAR_ORDER && all_stays());
        check("latest, 10", length, latest(WHOLE, WISHED, 1, SPACE, length) == TUZHELAR_COMPONENTS && all_stays());
    }
}

/* The times that are given: as many as are lent, and up to the limits. */
static void reaching_times(void)
{
    const int64_t limit = TUZHELAR_LAST_TIME;
    int64_t times[ANSWER] = {0};
    size_t length;
    for (length = 0; length <= ANSWER; length++) {
        check("latest, times lent", length,
              latest(WHOLE, times, length, SPACE, ANSWER) == (length == 2 ? TUZHELAR_DONE : TUZHELAR_COMPONENTS));
        check("latest, times lent for one trigger", length,
              latest(CIRCLE, times, length, SPACE, ANSWER) == (length == 1 ? TUZHELAR_ORDER : TUZHELAR_COMPONENTS));
        check("latest, 2 before 10", length, latest("", times, length, SPACE, ANSWER) == TUZHELAR_FORM);
    }
    check("latest, none is above", 0, latest(ONE, times, 1, SPACE, ANSWER) == TUZHELAR_DONE && reached[0] == 1 && reached[1] == 0);
    times[0] = times[1] = limit;
    check("latest, the limit", 0, latest(WHOLE, times, 2, SPACE, ANSWER) == TUZHELAR_DONE && reached[1] == limit && reached[2] == limit);
    times[0] = -limit;
    check("latest, both limits", 0, latest(WHOLE, times, 2, SPACE, ANSWER) == TUZHELAR_DONE);
    check("latest, both limits", 1, reached[1] == -limit && reached[2] == 1 - limit);
    times[1] = -limit;
    check("latest, below the limit", 0, latest(AFTER, times, 2, SPACE, ANSWER) == TUZHELAR_DONE);
    check("latest, below the limit", 1, reached[1] == -limit - 1 && reached[2] == -limit);
    check("latest, below the limit", 2, tested(AFTER, reached + 1, 2) == TUZHELAR_TIME);
    times[1] = limit + 1;
    check("latest, 11", 0, latest(WHOLE, times, 2, SPACE, ANSWER) == TUZHELAR_TIME && all_stays());
    check("latest, 11 before 9", 0, latest(WHOLE, times, 2, 0, ANSWER) == TUZHELAR_TIME && all_stays());
    check("latest, 10 before 11", 0, latest(WHOLE, times, 3, SPACE, ANSWER) == TUZHELAR_COMPONENTS && all_stays());
    times[0] = INT64_MIN;
    check("latest, 11 before 8", 0, latest(CIRCLE, times, 1, SPACE, ANSWER) == TUZHELAR_TIME && all_stays());
}

/* Two spaces and an answer, for comparing. */
static int32_t left[SPACE], right[SPACE];
static int64_t compared[ANSWER];

static uint32_t same(const char *first, const char *second, size_t left_length, size_t right_length, size_t answer_length)
{
    untouched(left, compared);
    untouched(right, compared);
    return tuzhelar_same(bytes(first), strlen(first), bytes(second), strlen(second), left, left_length, right, right_length,
                         compared, answer_length);
}

/* A refusal leaves both spaces. */
static int spaces_left(void)
{
    return space_holds(left, LINES, 0) && space_holds(right, LINES, 0);
}

static int all_left(void)
{
    return spaces_left() && answer_holds(compared, TWO_AND_TWO, 0);
}

/* With 9 go the two lines needed and the words of each, for the sheet at that place; the answer has so many words. */
static int needed(size_t at, size_t length)
{
    return spaces_left() && room_holds(compared, length, at, 2, 2 + at, TUZHELAR_LINE_WORDS);
}

/* Comparing, for every length of the spaces and the answer, and for each refusal that can come before another. */
static void comparing(void)
{
    const size_t lines = 2 * TUZHELAR_LINE_WORDS;
    size_t length;
    for (length = 0; length <= SPACE; length++) {
        int holds = length >= lines;
        check("same, words of the left space", length, same(WHOLE, EXCHANGED, length, SPACE, ANSWER) == (holds ? TUZHELAR_SAME : 9));
        check("same, the left space", length,
              holds ? space_holds(left, LINES, lines) && space_holds(right, LINES, lines) : needed(0, ANSWER));
        check("same, words of the right space", length, same(WHOLE, EXCHANGED, SPACE, length, ANSWER) == (holds ? TUZHELAR_SAME : 209));
        check("same, the right space", length,
              holds ? space_holds(left, LINES, lines) && space_holds(right, LINES, lines) : needed(1, ANSWER));
        check("same, words of both spaces", length, same(WHOLE, EXCHANGED, length, length, ANSWER) == (holds ? TUZHELAR_SAME : 9));
        check("same, both spaces", length, holds ? answer_holds(compared, TWO_AND_TWO, TUZHELAR_SAME_WORDS) : needed(0, ANSWER));
        check("same, a refusal of the second sheet", length, same(WHOLE, CIRCLE, SPACE, length, ANSWER) == 208 && all_left());
    }
    for (length = 0; length <= ANSWER; length++) {
        size_t written = least(length, TUZHELAR_SAME_WORDS);
        check("same, words of answer", length, same(WHOLE, WHOLE, SPACE, SPACE, length) == TUZHELAR_SAME);
        check("same, the answer", length, answer_holds(compared, TWO_AND_TWO, written));
        check("same, other timings", length, same(WHOLE, LATER, SPACE, SPACE, length) == TUZHELAR_DIFFERENT);
        check("same, other timings, the spaces", length, space_holds(left, LINES, lines) && space_holds(right, LATER_LINES, lines));
        check("same, other timings, the answer", length, answer_holds(compared, TWO_AND_TWO, written));
        check("same, other triggers", length, same(WHOLE, ONE, SPACE, SPACE, length) == TUZHELAR_UNLIKE);
        check("same, other triggers, the spaces", length,
              space_holds(left, LINES, lines) && space_holds(right, ONE_LINE, TUZHELAR_LINE_WORDS));
        check("same, other triggers, the answer", length, answer_holds(compared, TWO_AND_ONE, written));
        check("same, 9", length, same(WHOLE, WHOLE, 0, 0, length) == 9 && needed(0, length));
        check("same, 209", length, same(WHOLE, WHOLE, SPACE, 0, length) == 209 && needed(1, length));
    }
    check("same, 8 before 202", 0, same(CIRCLE, "", SPACE, SPACE, ANSWER) == 8 && all_left());
    check("same, 2 before 208", 0, same("", CIRCLE, SPACE, SPACE, ANSWER) == 2 && all_left());
    check("same, 9 before 202", 0, same(WHOLE, "", lines - 1, SPACE, ANSWER) == 9 && needed(0, ANSWER));
    check("same, 202", 0, same(WHOLE, "", lines, SPACE, ANSWER) == 202 && all_left());
    check("same, 8 before 209", 0, same(CIRCLE, WHOLE, SPACE, 0, ANSWER) == 8 && all_left());
    check("same, 209 before 102", 0, same(ONE, WHOLE, SPACE, 0, ANSWER) == 209 && needed(1, ANSWER));
}

/* Land lines: rules that bind the times, and lines that hold none. */
static void waiting(void)
{
    static const int64_t early[2] = {5, 0};
    const size_t lines = 2 * TUZHELAR_LINE_WORDS;
    int32_t space[SPACE];
    int64_t answer[ANSWER], times[2] = {0, -1};
    untouched(space, answer);
    check("land, plan", 0, tuzhelar_plan(bytes(WAITING), strlen(WAITING), space, SPACE, answer, ANSWER) == TUZHELAR_DONE);
    check("land, plan", 1, space_holds(space, WAITING_LINES, lines) && answer_holds(answer, PLANNED, TUZHELAR_PLAN_WORDS));
    untouched(space, answer);
    check("land, kept", 0, tuzhelar_kept(bytes(WAITING), strlen(WAITING), answer, ANSWER) == TUZHELAR_DONE);
    check("land, kept", 1, answer_holds(answer, KEPT, TUZHELAR_KEPT_WORDS));
    check("land, test", 0, tested(WAITING, times, 2) == TUZHELAR_YES);
    times[1] = -2;
    check("land, test", 1, tested(WAITING, times, 2) == TUZHELAR_NO && tested(WHOLE, times, 2) == TUZHELAR_YES);
    check("land, latest", 0, latest(WAITING, early, 2, SPACE, ANSWER) == TUZHELAR_DONE);
    check("land, latest", 1, reached[1] == 1 && reached[2] == 0 && space_holds(listed, WAITING_LINES, lines));
    check("land, as an after rule", 0, same(WAITING, BEHIND, SPACE, SPACE, ANSWER) == TUZHELAR_SAME);
    check("land, unlike no rule", 0, same(WAITING, WHOLE, SPACE, SPACE, ANSWER) == TUZHELAR_DIFFERENT);
    check("land without a rule", 0, same(NO_WAIT, WHOLE, SPACE, SPACE, ANSWER) == TUZHELAR_SAME && space_holds(left, LINES, lines));
}

/* ---- Spare triggers */

/* A sheet, planning's answer, the bytes that its first two panels keep, and its lines. */
struct worked {
    const char *sheet;
    int64_t answer[TUZHELAR_PLAN_WORDS], kept[2];
    int32_t lines[2][TUZHELAR_LINE_WORDS];
};

static const char IDLE[] = "panels=1\ntriggers=2\nlag=0,-\nfloor=0\ndue=0,-7\nafter=-,-\nafter=-,-\n";
static const char BETWEEN[] =
    "panels=2\ntriggers=3\nlag=2,-,0\nlag=4,-,1\nfloor=5,2\ndue=1,-99,2\nafter=-,-,-\nafter=-,-,-\nafter=-,-,-\n";
static const char FIRST[] = "panels=1\ntriggers=2\nlag=-,0\nfloor=0\ndue=-7,0\nafter=-,-\nafter=-,-\n";
/* A rule of a trigger with itself that asks for nothing: it is not spare. */
static const char ITSELF[] = "panels=1\ntriggers=2\nlag=0,-\nfloor=0\ndue=0,-7\nafter=-,-\nafter=-,0\n";

/* Those of IDLE, and sheets beside it: a trigger is spare with land lines that hold no rule, and is not with one entry of any kind. */
static const struct worked WORKED[] = {
    {IDLE, {0, 1, 1, 1, 2, 7}, {1, 0}, {{2, 0, NONE, NONE, NONE, NONE, NONE}, {0}}},
    {"panels=1\ntriggers=2\nlag=0,-\nfloor=0\ndue=0,-7\nafter=-,-\nafter=-,-\nland=-\nland=-\n",
     {0, 1, 1, 1, 2, 7}, {1, 0}, {{2, 0, NONE, NONE, NONE, NONE, NONE}, {0}}},
    {ITSELF, {0, 1, 1, 2, 0, 7}, {1, 0}, {{2, 0, NONE, NONE, NONE, NONE, NONE}, {2, 0, -7, NONE, NONE, NONE, NONE}}},
    {"panels=1\ntriggers=2\nlag=0,-\nfloor=0\ndue=0,-7\nafter=-,0\nafter=-,-\n",
     {0, 1, 1, 2, 0, 7}, {1, 0}, {{2, 0, NONE, NONE, NONE, NONE, NONE}, {2, 0, -7, NONE, NONE, NONE, NONE}}},
    {"panels=1\ntriggers=2\nlag=0,-\nfloor=0\ndue=0,-7\nafter=-,-\nafter=-9,-\n",
     {0, 1, 1, 2, 0, 7}, {1, 0}, {{2, 0, -9, NONE, NONE, NONE, NONE}, {2, 0, -7, NONE, NONE, NONE, NONE}}},
    {"panels=1\ntriggers=2\nlag=0,-\nfloor=0\ndue=0,-7\nafter=-,-\nafter=-,-\nland=-\nland=-9\n",
     {0, 1, 1, 2, 0, 7}, {1, 0}, {{2, 0, -9, NONE, NONE, NONE, NONE}, {2, 0, -7, NONE, NONE, NONE, NONE}}},
    {"panels=1\ntriggers=2\nlag=0,-100\nfloor=0\ndue=0,-7\nafter=-,-\nafter=-,-\n",
     {0, 1, 1, 2, 0, 7}, {1, 0}, {{2, 0, NONE, NONE, NONE, NONE, NONE}, {2, 0, -7, NONE, NONE, NONE, NONE}}},
    /* The first, the last, one between others, five of six. */
    {FIRST, {0, 1, 1, 1, 1, 7}, {2, 0}, {{2, NONE, 0, NONE, NONE, NONE, NONE}, {0}}},
    {"panels=2\ntriggers=3\nlag=2,0,-\nlag=4,1,-\nfloor=5,2\ndue=1,2,99\nafter=-,-,-\nafter=-,-,-\nafter=-,-,-\n",
     {2, 2, 1, 2, 4, 7}, {1, 3}, {{3, -1, 0, NONE, NONE, NONE, NONE}, {3, 0, NONE, NONE, NONE, NONE, NONE}}},
    {BETWEEN, {2, 2, 1, 2, 2, 7}, {1, 5}, {{3, -1, NONE, 0, NONE, NONE, NONE}, {3, 0, NONE, NONE, NONE, NONE, NONE}}},
    {"panels=1\ntriggers=6\nlag=-,-,-,3,-,-\nfloor=5\ndue=1,2,3,4,5,6\nafter=-,-,-,-,-,-\nafter=-,-,-,-,-,-\nafter=-,-,-,-,-,-\n"
     "after=-,-,-,-,-,-\nafter=-,-,-,-,-,-\nafter=-,-,-,-,-,-\n",
     {-2, 1, 1, 1, 1 + 2 + 4 + 16 + 32, 7}, {8, 0}, {{6, NONE, NONE, NONE, 0, NONE, NONE}, {0}}},
};

/* Planning and the kept table of each; for every length of the answer, the spare triggers are its fifth word. */
static void spare_plans(void)
{
    size_t i, length;
    for (i = 0; i < sizeof WORKED / sizeof WORKED[0]; i++) {
        const struct worked *worked = &WORKED[i];
        const char *sheet = worked->sheet;
        const size_t words = TUZHELAR_LINE_WORDS * (size_t)worked->answer[3];
        int32_t space[SPACE];
        int64_t answer[ANSWER];
        for (length = 0; length <= ANSWER; length++) {
            untouched(space, answer);
            check(sheet, length, tuzhelar_plan(bytes(sheet), strlen(sheet), space, SPACE, answer, length) == TUZHELAR_DONE);
            check(sheet, length, answer_holds(answer, worked->answer, least(length, TUZHELAR_PLAN_WORDS)));
            check(sheet, length, space_holds(space, worked->lines[0], words));
            untouched(space, answer);
            check(sheet, length, tuzhelar_plan(bytes(sheet), strlen(sheet), space, words - 1, answer, length) == TUZHELAR_SPACE);
            check(sheet, length, room_holds(answer, length, 3, worked->answer[3], 5, 7) && space_holds(space, worked->lines[0], 0));
        }
        check(sheet, 0, tuzhelar_kept(bytes(sheet), strlen(sheet), answer, ANSWER) == TUZHELAR_DONE);
        check(sheet, 0, memcmp(answer, worked->answer, 3 * sizeof *answer) == 0);
        check(sheet, 0, answer[4] == worked->kept[0] && answer[6] == worked->kept[1] && answer[8] == 0);
    }
}

/* Any time within the limits for a spare trigger, which comes back as it was given. */
static void spare_times(void)
{
    static const int64_t TIMES[] = {TUZHELAR_LAST_TIME, -(int64_t)TUZHELAR_LAST_TIME, -99, 12345, 0};
    const int64_t beyond = (int64_t)TUZHELAR_LAST_TIME + 1;
    int64_t times[3] = {0, 0, 2};
    size_t i;
    for (i = 0; i < sizeof TIMES / sizeof TIMES[0]; i++) {
        times[1] = TIMES[i];
        check("spare, test", i, tested(IDLE, times, 2) == TUZHELAR_YES && tested(BETWEEN, times, 3) == TUZHELAR_NO);
        check("spare, latest", i, latest(BETWEEN, times, 3, SPACE, ANSWER) == TUZHELAR_DONE);
        check("spare, latest", i, reached[0] == 2 && reached[1] == 0 && reached[2] == TIMES[i] && reached[3] == 1 && reached[4] == 0);
        check("spare, the latest tested", i, tested(BETWEEN, reached + 1, 3) == TUZHELAR_YES);
    }
    times[1] = -6;
    check("not spare, test", 0, tested(ITSELF, times, 2) == TUZHELAR_NO);
    times[1] = -7;
    check("not spare, test", 1, tested(ITSELF, times, 2) == TUZHELAR_YES);
    for (i = 0; i < 2; i++) {
        times[1] = i == 0 ? beyond : -beyond;
        check("spare, 11", i, tested(BETWEEN, times, 3) == TUZHELAR_TIME && latest(BETWEEN, times, 3, SPACE, ANSWER) == TUZHELAR_TIME);
        check("spare, 11", i, all_stays());
        check("spare, 10 before 11", i, tested(BETWEEN, times, 2) == TUZHELAR_COMPONENTS && tested(IDLE, times, 1) == TUZHELAR_COMPONENTS);
    }
}

/* Sheets with as many triggers of which not the same are spare are not compared, but planned. */
static void spare_pairs(void)
{
    static const int64_t ONE_AND_ONE[TUZHELAR_SAME_WORDS] = {1, 1, 7, 7}, ONE_AND_TWO[TUZHELAR_SAME_WORDS] = {1, 2, 7, 7};
    static const char OTHER_DUE[] = "panels=1\ntriggers=2\nlag=0,-\nfloor=0\ndue=0,100000\nafter=-,-\nafter=-,-\n";
    /* On both of these sheets every timing is tightest. */
    static const char ALL[] = "panels=1\ntriggers=2\nlag=0,0\nfloor=0\ndue=0,0\nafter=-,-\nafter=-,-\n";
    static const char ALL_IDLE[] = "panels=1\ntriggers=2\nlag=0,-\nfloor=0\ndue=0,0\nafter=-,-\nafter=-,-\n";
    const int32_t *idle = WORKED[0].lines[0], *itself = WORKED[2].lines[0];
    size_t length;
    for (length = 0; length <= ANSWER; length++) {
        size_t written = least(length, TUZHELAR_SAME_WORDS);
        check("same, other spares", length, same(IDLE, ITSELF, SPACE, SPACE, length) == TUZHELAR_UNLIKE);
        check("same, other spares, the answer", length, answer_holds(compared, ONE_AND_TWO, written));
        check("same, other spares, the spaces", length,
              space_holds(left, idle, TUZHELAR_LINE_WORDS) && space_holds(right, itself, 2 * TUZHELAR_LINE_WORDS));
        check("same, the same spares", length, same(IDLE, OTHER_DUE, SPACE, SPACE, length) == TUZHELAR_SAME);
        check("same, the same spares, the answer", length, answer_holds(compared, ONE_AND_ONE, written));
        check("same, 209 before 102", length, same(IDLE, ITSELF, SPACE, 2 * TUZHELAR_LINE_WORDS - 1, length) == 209);
        check("same, 209 before 102", length, needed(1, length));
    }
    check("same, another one spare", 0, same(FIRST, IDLE, SPACE, SPACE, ANSWER) == TUZHELAR_UNLIKE);
    check("same, another one spare", 1, answer_holds(compared, ONE_AND_ONE, TUZHELAR_SAME_WORDS));
    check("same, other spares and the same timings", 0, same(ALL_IDLE, ALL, SPACE, SPACE, ANSWER) == TUZHELAR_UNLIKE);
    check("same, other spares and the same timings", 1, answer_holds(compared, ONE_AND_TWO, TUZHELAR_SAME_WORDS));
}

/* Every function refuses the sheet with that number, and writes nothing. */
static void refused(const char *sheet, uint32_t number)
{
    const size_t length = strlen(sheet);
    int32_t space[SPACE];
    int64_t answer[ANSWER];
    untouched(space, answer);
    check(sheet, number, tuzhelar_plan(bytes(sheet), length, space, SPACE, answer, ANSWER) == number);
    check(sheet, number, tuzhelar_kept(bytes(sheet), length, answer, ANSWER) == number);
    check(sheet, number, space_holds(space, LINES, 0) && answer_holds(answer, PLANNED, 0));
    check(sheet, number, tested(sheet, WISHED, 1) == number);
    check(sheet, number, latest(sheet, WISHED, 1, SPACE, ANSWER) == number && all_stays());
    check(sheet, number, same(sheet, WHOLE, SPACE, SPACE, ANSWER) == number && all_left());
    check(sheet, number, same(WHOLE, sheet, SPACE, SPACE, ANSWER) == TUZHELAR_SECOND + number && all_left());
}

/* Refusals of land lines: line by line, in one line 2 before 4, and both before 6 and 7; then 8. */
static void land_refusals(void)
{
    refused("panels=2\ntriggers=1\nlag=5\nlag=5\nfloor=0,0\ndue=0\nafter=-\nland=-\n", TUZHELAR_FORM);
    refused("panels=1\ntriggers=1\nlag=5\nfloor=0\ndue=0\nafter=-\nland=-\nland=-\n", TUZHELAR_FORM);
    refused("panels=1\ntriggers=1\nlag=5\nfloor=0\ndue=0\nafter=-\nland=", TUZHELAR_FORM);
    refused("panels=1\ntriggers=1\nlag=5\nfloor=0\ndue=0\nland=-\nafter=-\n", TUZHELAR_FORM);
    refused("panels=1\ntriggers=1\nlag=-\nfloor=-\ndue=0\nafter=-\nland=100001\nland", TUZHELAR_RANGE);
    refused("panels=1\ntriggers=1\nlag=-\nfloor=-\ndue=0\nafter=-\nland=-100001,x\n", TUZHELAR_FORM);
    refused("panels=1\ntriggers=1\nlag=-\nfloor=-\ndue=0\nafter=-\nland=1\n", TUZHELAR_NO_LAG);
    refused("panels=1\ntriggers=1\nlag=5\nfloor=-\ndue=0\nafter=-\nland=1\n", TUZHELAR_NO_FLOOR);
    refused("panels=1\ntriggers=1\nlag=5\nfloor=0\ndue=0\nafter=-\nland=-4\n", TUZHELAR_ORDER);
}

/* A spare trigger's due mark is read as any other, and a circle of the others is 8. */
static void spare_refusals(void)
{
    refused("panels=1\ntriggers=2\nlag=0,-\nfloor=0\ndue=0,-\nafter=-,-\nafter=-,-\n", TUZHELAR_NO_DUE);
    refused("panels=1\ntriggers=2\nlag=0,-\nfloor=0\ndue=0,100001\nafter=-,-\nafter=-,-\n", TUZHELAR_RANGE);
    refused("panels=1\ntriggers=2\nlag=0,-\nfloor=0\ndue=0,-0\nafter=-,-\nafter=-,-\n", TUZHELAR_FORM);
    refused("panels=1\ntriggers=2\nlag=-,-\nfloor=0\ndue=0,0\nafter=-,-\nafter=-,-\n", TUZHELAR_NO_LAG);
    check("spare, 8", 0, latest("panels=1\ntriggers=2\nlag=0,-\nfloor=0\ndue=0,0\nafter=1,-\nafter=-,-\n", WISHED, 2, SPACE, ANSWER) ==
                             TUZHELAR_ORDER && all_stays());
    check("spare, no space", 0, latest(IDLE, WISHED, 2, 0, ANSWER) == TUZHELAR_SPACE && reached[0] == 1);
}

/* Adds lines of entries that have as many bytes as one can have. Returns the length then. */
static size_t add_lines(char *sheet, size_t length, const char *key, size_t lines, size_t items)
{
    size_t i;
    for (; lines > 0; lines--) {
        length += (size_t)sprintf(sheet + length, "%s", key);
        for (i = 0; i < items; i++) {
            length += (size_t)sprintf(sheet + length, "%s-100000", i == 0 ? "" : ",");
        }
        length += (size_t)sprintf(sheet + length, "\n");
    }
    return length;
}

/* The longest sheet of these sizes, with marks or under rule 2. Returns its length. */
static size_t longest_of(char *sheet, int marks, size_t panels, size_t triggers)
{
    size_t length = (size_t)sprintf(sheet, "%spanels=%d\ntriggers=%d\n", marks ? "" : "rule=2\n", (int)panels, (int)triggers);
    length = add_lines(sheet, length, "lag=", panels, triggers);
    length = add_lines(sheet, length, "floor=", marks ? 1 : 0, panels);
    length = add_lines(sheet, length, "due=", marks ? 1 : 0, triggers);
    length = add_lines(sheet, length, "after=", triggers, triggers);
    length = add_lines(sheet, length, "land=", triggers, panels);
    return add_lines(sheet, length, "last=", 1, panels);
}

/*
 * No good sheet has more bytes than LONGEST: its sizes fix its lines, keys and numbers of items, no entry within the limits has more bytes than
 * -100000, most items stand where both sizes are 6, and the rule line is shorter than the lines of marks. There is such a sheet, and with a byte
 * more at any place it is none.
 */
static void longest(void)
{
    static const char MORE[] = "0-,\n";
    char sheet[LONGEST + 1], longer[LONGEST + 1];
    size_t panels, triggers, length = 0, at, i;
    for (panels = 1; panels <= TUZHELAR_MOST; panels++) {
        for (triggers = 1; triggers <= TUZHELAR_MOST; triggers++) {
            size_t ruled = longest_of(sheet, 0, panels, triggers);
            check("the longest sheet of these sizes under rule 2", 10 * panels + triggers,
                  tuzhelar_kept_table(sheet, ruled).refusal == TUZHELAR_DONE);
            length = longest_of(sheet, 1, panels, triggers);
            check("the longest sheet of these sizes", 10 * panels + triggers,
                  ruled < length && length <= LONGEST && tuzhelar_kept_table(sheet, length).refusal == TUZHELAR_DONE);
        }
    }
    check("the longest sheet", length, length == LONGEST);
    for (at = 0; at <= length; at++) {
        for (i = 0; i < strlen(MORE); i++) {
            memcpy(longer, sheet, at);
            longer[at] = MORE[i];
            memcpy(longer + at + 1, sheet + at, length - at);
            check("the longest sheet and a byte", at, tuzhelar_kept_table(longer, length + 1).refusal != TUZHELAR_DONE);
        }
    }
}

/* Sheets of every length up to some past the limit, in memory of just that size. */
static void sheets(void)
{
    size_t length;
    for (length = 0; length <= TUZHELAR_SHEET_BYTES + 3; length++) {
        uint8_t *sheet = (uint8_t *)malloc(length == 0 ? 1 : length);
        uint32_t wanted = length > TUZHELAR_SHEET_BYTES ? TUZHELAR_TOO_LONG : TUZHELAR_FORM;
        struct tuzhelar_planned planned;
        int32_t word = UNTOUCHED;
        if (sheet == NULL) {
            check("memory", length, 0);
            return;
        }
        /* The whole case, cut short or with line ends behind it. */
        memset(sheet, '\n', length);
        memcpy(sheet, WHOLE, least(length, strlen(WHOLE)));
        if (length == strlen(WHOLE)) {
            wanted = TUZHELAR_SPACE;
        }
        planned = tuzhelar_plan_sheet(sheet, length, &word, 1);
        check("sheet of this length, plan", length, planned.refusal == wanted && word == UNTOUCHED);
        check("sheet of this length, kept", length,
              tuzhelar_kept_table(sheet, length).refusal == (wanted == TUZHELAR_SPACE ? TUZHELAR_DONE : wanted));
        check("sheet of this length, test", length,
              tuzhelar_test_timing(sheet, length, NULL, 0) == (wanted == TUZHELAR_SPACE ? TUZHELAR_COMPONENTS : wanted));
        check("sheet of this length, latest", length,
              tuzhelar_latest_timing(sheet, length, WISHED, 2, &word, 1).refusal == wanted && word == UNTOUCHED);
        free(sheet);
    }
}

/* The layer: null pointers, absurd lengths and a sheet inside the space. */
static void layer(void)
{
    union {
        char sheet[sizeof WHOLE];
        int32_t words[SPACE];
    } shared;
    const int64_t times[8] = {0, 1, 0, 0, 0, 0, 0, 0};
    const size_t whole = strlen(WHOLE);
    int32_t space[SPACE];
    int64_t answer[ANSWER];
    struct tuzhelar_planned planned;
    struct tuzhelar_keeping keeping;
    size_t count;

    untouched(space, answer);
    for (count = 0; count < 3; count++) {
        size_t length = count == 0 ? 0 : count == 1 ? whole : SIZE_MAX;
        planned = tuzhelar_plan_sheet(NULL, length, space, SPACE);
        check("no sheet, plan", length, planned.refusal == TUZHELAR_FORM && planned.deviation == 0 && planned.steps == 0);
        check("no sheet, plan", length, planned.selections == 0 && planned.count == 0 && space_holds(space, LINES, 0));
        check("no sheet, plan", length, planned.spares == 0 && planned.line_words == 0);
        check("no sheet, kept", length, tuzhelar_kept_table(NULL, length).refusal == TUZHELAR_FORM);
        check("no sheet, test", length, tuzhelar_test_timing(NULL, length, times, 2) == TUZHELAR_FORM);
        planned = tuzhelar_plan_sheet(WHOLE, whole, NULL, length);
        check("no space", length, planned.refusal == TUZHELAR_SPACE && planned.count == 2 && planned.deviation == 0);
        check("no space", length, planned.line_words == TUZHELAR_LINE_WORDS);
        planned = tuzhelar_plan_sheet(BETWEEN, strlen(BETWEEN), NULL, length);
        check("no space, spares", length, planned.refusal == TUZHELAR_SPACE && planned.count == 2 && planned.spares == 0);
        check("no times", length, tuzhelar_test_timing(WHOLE, whole, NULL, length) == TUZHELAR_COMPONENTS);
    }
    planned = tuzhelar_plan_sheet(WHOLE, SIZE_MAX, space, SPACE);
    check("the longest sheet, plan", 0, planned.refusal == TUZHELAR_TOO_LONG && space_holds(space, LINES, 0));
    check("the longest sheet, kept", 0, tuzhelar_kept_table(WHOLE, SIZE_MAX).refusal == TUZHELAR_TOO_LONG);
    check("the longest sheet, test", 0, tuzhelar_test_timing(WHOLE, SIZE_MAX, times, 2) == TUZHELAR_TOO_LONG);

    planned = tuzhelar_plan_sheet(WHOLE, whole, space, SPACE);
    check("plan", 0, planned.refusal == TUZHELAR_DONE && planned.deviation == 2 && planned.steps == 2);
    check("plan", 1, planned.selections == 1 && planned.count == 2 && planned.spares == 0);
    check("plan", 2, space_holds(space, LINES, 2 * TUZHELAR_LINE_WORDS));
    check("plan", 3, planned.line_words == TUZHELAR_LINE_WORDS);
    check("component", 0, tuzhelar_component(space, 7, 0, 0) == -1 && tuzhelar_component(space, 7, 0, 1) == 0);
    check("component", 1, tuzhelar_component(space, 7, 1, 0) == 0 && tuzhelar_component(space, 7, 1, 1) == TUZHELAR_ABSENT);

    planned = tuzhelar_plan_sheet(BETWEEN, strlen(BETWEEN), space, SPACE);
    check("plan, spares", 0, planned.refusal == TUZHELAR_DONE && planned.deviation == 2 && planned.count == 2 && planned.spares == 2);
    check("component, spare", 0, tuzhelar_component(space, 7, 0, 0) == -1 && tuzhelar_component(space, 7, 0, 1) == NONE);
    for (count = 0; count <= 64; count++) {
        check("is it spare", count, tuzhelar_is_spare(planned.spares, count) == (count == 1));
        check("all are spare", count, tuzhelar_is_spare(63, count) == (count < TUZHELAR_MOST));
    }

    memcpy(shared.sheet, WHOLE, whole);
    planned = tuzhelar_plan_sheet(shared.sheet, whole, shared.words, SPACE);
    check("sheet in the space", 0, planned.refusal == TUZHELAR_DONE && planned.count == 2);
    check("sheet in the space", 1, memcmp(shared.words, LINES, sizeof LINES) == 0);

    keeping = tuzhelar_kept_table(WHOLE, whole);
    check("kept", 0, keeping.refusal == TUZHELAR_DONE && keeping.deviation == 2 && keeping.steps == 2);
    check("kept", 1, keeping.selections == 1 && keeping.panels == 2);
    check("kept", 2, keeping.kept[0] == 1 && keeping.counts[0] == 1 && keeping.kept[1] == 3 && keeping.counts[1] == 2);
    keeping = tuzhelar_kept_table(CIRCLE, strlen(CIRCLE));
    check("kept, 8", 0, keeping.refusal == TUZHELAR_ORDER && keeping.panels == 0 && keeping.steps == 0);

    for (count = 0; count <= 8; count++) {
        check("times", count,
              tuzhelar_test_timing(WHOLE, whole, times, count) == (count == 2 ? TUZHELAR_YES : TUZHELAR_COMPONENTS));
        check("no times", count, tuzhelar_test_timing(WHOLE, whole, NULL, count) == TUZHELAR_COMPONENTS);
    }
    /* Nothing is read through these pointers: they lead nowhere. */
    check("seven times, unread", 0, tuzhelar_test_timing(WHOLE, whole, (const int64_t *)8, 7) == TUZHELAR_COMPONENTS);
    check("the most times, unread", 0, tuzhelar_test_timing(WHOLE, whole, (const int64_t *)8, SIZE_MAX) == TUZHELAR_COMPONENTS);
    check("too long a sheet, unread", 0, tuzhelar_test_timing((const void *)8, 2049, times, 2) == TUZHELAR_TOO_LONG);
}

static int no_times(const int64_t *times)
{
    size_t j;
    for (j = 0; j < TUZHELAR_MOST; j++) {
        if (times[j] != 0) {
            return 0;
        }
    }
    return 1;
}

/* The layer for the latest times: null pointers, absurd lengths, and the sheet or the times inside the space. */
static void layer_for_latest(void)
{
    union {
        char sheet[sizeof WHOLE];
        int64_t times[2];
        int32_t words[SPACE];
    } shared;
    const size_t whole = strlen(WHOLE);
    struct tuzhelar_reached found;
    size_t i;
    untouched(listed, reached);
    for (i = 0; i < 3; i++) {
        size_t length = i == 0 ? 0 : i == 1 ? whole : SIZE_MAX;
        found = tuzhelar_latest_timing(NULL, length, WISHED, 2, listed, SPACE);
        check("no sheet, latest", length, found.refusal == TUZHELAR_FORM && found.count == 0 && no_times(found.times) && all_stays());
        check("no sheet, latest, words", length, found.line_words == 0);
        found = tuzhelar_latest_timing(WHOLE, whole, NULL, length, listed, SPACE);
        check("no times, latest", length, found.refusal == TUZHELAR_COMPONENTS && found.count == 0 && all_stays());
        found = tuzhelar_latest_timing(WHOLE, whole, WISHED, 2, NULL, length);
        check("no space, latest", length, found.refusal == TUZHELAR_SPACE && found.count == 2 && no_times(found.times));
        check("no space, latest, words", length, found.line_words == TUZHELAR_LINE_WORDS);
    }
    found = tuzhelar_latest_timing(WHOLE, SIZE_MAX, WISHED, 2, listed, SPACE);
    check("the longest sheet, latest", 0, found.refusal == TUZHELAR_TOO_LONG && all_stays());
    /* Nothing is read through these pointers: they lead nowhere. */
    found = tuzhelar_latest_timing(WHOLE, whole, (const int64_t *)8, 7, listed, SPACE);
    check("seven times, unread, latest", 0, found.refusal == TUZHELAR_COMPONENTS && all_stays());
    found = tuzhelar_latest_timing(WHOLE, whole, (const int64_t *)8, SIZE_MAX, listed, SPACE);
    check("the most times, unread, latest", 0, found.refusal == TUZHELAR_COMPONENTS && all_stays());

    found = tuzhelar_latest_timing(WHOLE, whole, WISHED, 2, listed, SPACE);
    check("latest", 0, found.refusal == TUZHELAR_DONE && found.count == 2 && space_holds(listed, LINES, 2 * TUZHELAR_LINE_WORDS));
    check("latest", 1, memcmp(found.times, LATEST + 1, sizeof found.times) == 0 && found.line_words == TUZHELAR_LINE_WORDS);
    memcpy(shared.sheet, WHOLE, whole);
    found = tuzhelar_latest_timing(shared.sheet, whole, WISHED, 2, shared.words, SPACE);
    check("sheet in the space, latest", 0, found.refusal == TUZHELAR_DONE && memcmp(shared.words, LINES, sizeof LINES) == 0);
    memcpy(shared.times, WISHED, sizeof shared.times);
    found = tuzhelar_latest_timing(WHOLE, whole, shared.times, 2, shared.words, SPACE);
    check("times in the space", 0, found.refusal == TUZHELAR_DONE && memcmp(shared.words, LINES, sizeof LINES) == 0);
    check("times in the space", 1, memcmp(found.times, LATEST + 1, sizeof found.times) == 0);
}

/* The layer for two sheets: null pointers, absurd lengths and sheets inside the spaces. */
static void layer_for_two(void)
{
    union {
        char sheet[sizeof WHOLE];
        int32_t words[SPACE];
    } one, other;
    const size_t whole = strlen(WHOLE);
    struct tuzhelar_compared found;
    size_t i;
    for (i = 0; i < 3; i++) {
        size_t length = i == 0 ? 0 : i == 1 ? whole : SIZE_MAX;
        untouched(left, compared);
        untouched(right, compared);
        found = tuzhelar_same_timings(NULL, length, WHOLE, whole, left, SPACE, right, SPACE);
        check("no first sheet", length, found.number == 2 && found.first == 0 && found.second == 0 && all_left());
        found = tuzhelar_same_timings(WHOLE, whole, NULL, length, left, SPACE, right, SPACE);
        check("no second sheet", length, found.number == 202 && found.first == 0 && found.second == 0 && all_left());
        found = tuzhelar_same_timings(WHOLE, whole, WHOLE, whole, NULL, length, right, SPACE);
        check("no left space", length, found.number == 9 && found.first == 2 && found.second == 0 && all_left());
        check("no left space, words", length, found.first_words == TUZHELAR_LINE_WORDS && found.second_words == 0);
        found = tuzhelar_same_timings(WHOLE, whole, WHOLE, whole, left, SPACE, NULL, length);
        check("no right space", length, found.number == 209 && found.first == 0 && found.second == 2 && all_left());
        check("no right space, words", length, found.first_words == 0 && found.second_words == TUZHELAR_LINE_WORDS);
        found = tuzhelar_same_timings(NULL, length, NULL, length, NULL, length, NULL, length);
        check("nothing at all", length, found.number == 2 && found.first == 0 && found.second == 0);
    }
    found = tuzhelar_same_timings(WHOLE, SIZE_MAX, WHOLE, whole, left, SPACE, right, SPACE);
    check("the longest first sheet", 0, found.number == TUZHELAR_TOO_LONG && all_left());
    found = tuzhelar_same_timings(WHOLE, whole, WHOLE, SIZE_MAX, left, SPACE, right, SPACE);
    check("the longest second sheet", 0, found.number == TUZHELAR_SECOND + TUZHELAR_TOO_LONG && all_left());

    found = tuzhelar_same_timings(WHOLE, whole, ONE, strlen(ONE), left, SPACE, right, SPACE);
    check("two sheets", 0, found.number == TUZHELAR_UNLIKE && found.first == 2 && found.second == 1);
    check("two sheets", 1, found.first_words == TUZHELAR_LINE_WORDS && found.second_words == TUZHELAR_LINE_WORDS);
    for (i = 0; i < 2; i++) {
        memcpy(one.sheet, WHOLE, whole);
        memcpy(other.sheet, EXCHANGED, whole);
        found = tuzhelar_same_timings(one.sheet, whole, other.sheet, whole, i == 0 ? one.words : other.words, SPACE,
                                      i == 0 ? other.words : one.words, SPACE);
        check("sheets in the spaces", i, found.number == TUZHELAR_SAME && found.first == 2 && found.second == 2);
        check("sheets in the spaces, the lists", i,
              memcmp(one.words, LINES, sizeof LINES) == 0 && memcmp(other.words, LINES, sizeof LINES) == 0);
    }
}

static void meanings(void)
{
    const char *none = tuzhelar_meaning(99);
    uint32_t number;
    for (number = 0; number <= 14; number++) {
        check("a meaning", number, strcmp(tuzhelar_meaning(number), none) != 0);
    }
    check("a meaning", 100, strcmp(tuzhelar_meaning(TUZHELAR_YES), none) != 0);
    check("a meaning", 101, strcmp(tuzhelar_meaning(TUZHELAR_NO), none) != 0);
    for (number = 1; number <= 14; number++) {
        const char *meaning = tuzhelar_meaning(number);
        check("a meaning for two sheets", number, strcmp(tuzhelar_same_meaning(number), meaning) == 0);
        check("a meaning for the second", number, strcmp(tuzhelar_same_meaning(TUZHELAR_SECOND + number), meaning) == 0);
    }
    for (number = TUZHELAR_SAME; number <= TUZHELAR_UNLIKE; number++) {
        check("a meaning for two sheets", number, strcmp(tuzhelar_same_meaning(number), none) != 0);
        check("another than for times", number, strcmp(tuzhelar_same_meaning(number), tuzhelar_meaning(number)) != 0);
    }
}

int main(void)
{
    lengths();
    reaching();
    reaching_times();
    comparing();
    waiting();
    land_refusals();
    spare_plans();
    spare_times();
    spare_pairs();
    spare_refusals();
    longest();
    sheets();
    layer();
    layer_for_latest();
    layer_for_two();
    meanings();
    return summed();
}
