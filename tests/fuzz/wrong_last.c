/* Wrong planners that are wrong about last lines and caps. */
#include "wrong.h"

#include <string.h>

#include "last.h"
#include "list.h"
#include "meaning.h"

#define BESIDE_WORDS 800 /* of a space of its own: more than any list that is met takes */

static int read_with_last(const uint8_t *sheet, size_t length, struct tables *tables)
{
    return read_tables(sheet, length, tables) == 0 && has_last(tables);
}

/* ---- Reading */

/* The refusal of the lines before the last line, or 0. */
static uint32_t front_refusal(const uint8_t *sheet, size_t front)
{
    int64_t none = 0;
    uint32_t number = __real_tuzhelar_kept(sheet, front, &none, 0);
    return number == TUZHELAR_ORDER ? TUZHELAR_DONE : number;
}

static int has_absent_item(const uint8_t *sheet, size_t at, size_t end)
{
    for (; at + 1 < end; at++) {
        if (sheet[at] == '-' && (sheet[at + 1] == ',' || sheet[at + 1] == '\n')) {
            return 1;
        }
    }
    return 0;
}

/* Whether the sheet is good once its last line stands behind all others. */
static int is_good_turned(const uint8_t *sheet, size_t length, size_t at)
{
    uint8_t turned[TUZHELAR_SHEET_BYTES];
    size_t end = line_end(sheet, length, at), behind = length - end;
    if (length > TUZHELAR_SHEET_BYTES) {
        return 0;
    }
    memcpy(turned, sheet, at);
    memcpy(turned + at, sheet + end, behind);
    memcpy(turned + at + behind, sheet + at, end - at);
    return is_good(turned, length);
}

/* Faults on a sheet whose lines before the last line are good. */
static uint32_t reading_behind(const uint8_t *sheet, size_t length, size_t at, uint32_t number)
{
    size_t end = line_end(sheet, length, at);
    if (fault(80)) {
        return TUZHELAR_FORM; /* bytes left over, as before there was such a line */
    }
    if (fault(81) && number == TUZHELAR_NO_DUE) {
        return TUZHELAR_FORM; /* an absent moment is not 5 */
    }
    if (fault(82) && number == TUZHELAR_NO_DUE) {
        return TUZHELAR_DONE; /* or no fault at all */
    }
    if (fault(83) && number == TUZHELAR_RANGE) {
        return TUZHELAR_FORM; /* a moment beyond the limit is not 4 */
    }
    if (fault(84) && number == TUZHELAR_RANGE && has_absent_item(sheet, at, end)) {
        return TUZHELAR_NO_DUE; /* 5 before 4 */
    }
    if (fault(85) && number == TUZHELAR_FORM && is_good(sheet, end)) {
        return TUZHELAR_DONE; /* a second last line, or any bytes behind the first */
    }
    return number;
}

uint32_t reading_last(const uint8_t *sheet, size_t length, uint32_t number)
{
    size_t at = before_key(sheet, length, "last=");
    uint32_t front = at < length ? front_refusal(sheet, at) : TUZHELAR_FORM;
    if (fault(86) && (front == TUZHELAR_NO_LAG || front == TUZHELAR_NO_FLOOR)) {
        return front; /* 6 and 7 before the last line's faults */
    }
    if (fault(87) && number == TUZHELAR_FORM && at < length && is_good_turned(sheet, length, at)) {
        return TUZHELAR_DONE; /* a last line before the land lines */
    }
    return front == TUZHELAR_DONE ? reading_behind(sheet, length, at, number) : number;
}

/* ---- Tables with other last moments */

size_t forget_last(uint8_t *copy, const uint8_t *sheet, size_t length)
{
    size_t end = before_key(sheet, length, "last=");
    memcpy(copy, sheet, end);
    return end;
}

/* Every panel has to land 1 earlier. */
static struct tables one_earlier(const struct tables *tables)
{
    struct tables earlier = *tables;
    int i;
    for (i = 0; i < tables->panels; i++) {
        earlier.last[i] -= tables->last[i] > -LIMIT;
    }
    return earlier;
}

/* ---- Caps */

/* A sheet that has a plan, planned beside the call. */
struct beside {
    int64_t answer[TUZHELAR_PLAN_WORDS];
    int32_t space[BESIDE_WORDS];
};

static struct beside *plan_beside(const uint8_t *sheet, size_t length)
{
    static struct beside beside;
    __real_tuzhelar_plan(sheet, length, beside.space, BESIDE_WORDS, beside.answer, TUZHELAR_PLAN_WORDS);
    return &beside;
}

/* What a line leaves of the last moments of the panels that count: the least. Those that it does not reach count as if it landed at 0. */
static int64_t least_left(const struct tables *tables, const int32_t *line, int floors, int unreached)
{
    int64_t least = INT64_MAX;
    int i, j;
    for (i = 0; i < tables->panels; i++) {
        int64_t landing = NONE;
        for (j = 0; j < tables->triggers; j++) {
            if (tables->lag[i][j] != NONE && line[1 + j] != TUZHELAR_ABSENT && tables->lag[i][j] + line[1 + j] > landing) {
                landing = tables->lag[i][j] + line[1 + j];
            }
        }
        landing = landing == NONE && unreached ? 0 : landing;
        if (landing != NONE && (!floors || has_floor(tables, i)) && tables->last[i] - landing < least) {
            least = tables->last[i] - landing;
        }
    }
    return least;
}

static int32_t wrong_cap(const struct tables *tables, const int32_t *line, int32_t cap)
{
    if (fault(89)) {
        return cap + 1;
    }
    if (fault(90)) {
        return cap - 1;
    }
    if (fault(91)) {
        return (int32_t)least_left(tables, line, 0, 1); /* for panels too that the line does not reach */
    }
    if (fault(92)) {
        return (int32_t)least_left(tables, line, 1, 0); /* for panels with a floor only */
    }
    if (fault(93)) {
        return cap < 0 ? 0 : cap; /* none below 0 */
    }
    if (fault(94)) {
        return 0; /* none worked out */
    }
    return cap;
}

static int is_of_caps(void)
{
    return fault(89) || fault(90) || fault(91) || fault(92) || fault(93) || fault(94);
}

void wrong_caps(const uint8_t *sheet, size_t length, int32_t *space)
{
    struct tables tables;
    int64_t line, count;
    if (is_of_caps() && read_with_last(sheet, length, &tables)) {
        count = plan_beside(sheet, length)->answer[3];
        for (line = 0; line < count; line++) {
            int32_t *words = space + TUZHELAR_CAPPED_WORDS * line;
            words[TUZHELAR_LINE_WORDS] = wrong_cap(&tables, words, words[TUZHELAR_LINE_WORDS]);
        }
    }
}

/* ---- Planning */

size_t room_last(const uint8_t *sheet, size_t length, size_t space_length)
{
    struct tables tables;
    int last = read_with_last(sheet, length, &tables);
    if (fault(88) && !last) {
        return space_length / TUZHELAR_CAPPED_WORDS * TUZHELAR_LINE_WORDS; /* room by eight words where a line takes seven */
    }
    return fault(95) && last ? 0 : space_length; /* this one writes its own list */
}

/* Lines that must come before 0 left out, unless all must. */
static void drop_early(struct beside *beside)
{
    const size_t wide = TUZHELAR_CAPPED_WORDS;
    size_t count = (size_t)beside->answer[3], left = 0, line;
    for (line = 0; line < count; line++) {
        if (beside->space[wide * line + TUZHELAR_LINE_WORDS] >= 0) {
            memmove(beside->space + wide * left++, beside->space + wide * line, wide * sizeof *beside->space);
        }
    }
    beside->answer[3] = (int64_t)(left == 0 ? count : left);
}

/* Writes another plan than the one that was refused, where there is room by so many words for each line. */
static uint32_t write_beside(const struct beside *beside, size_t wide, const struct written *written)
{
    size_t count = (size_t)beside->answer[3], words = TUZHELAR_CAPPED_WORDS * count, i;
    int holds = count * wide <= written->space_length;
    for (i = 0; i < written->answer_length && i < TUZHELAR_PLAN_WORDS; i++) {
        written->answer[i] = holds || i == 3 || i == 5 ? beside->answer[i] : written->answer[i];
    }
    words = words < written->space_length ? words : written->space_length;
    if (holds) {
        memcpy(written->space, beside->space, words * sizeof *written->space);
    }
    return holds ? TUZHELAR_DONE : TUZHELAR_SPACE;
}

/* Faults of the word for the words of a line. */
static void wrong_words(uint32_t number, const struct written *written)
{
    if (fault(97) && number == TUZHELAR_DONE) {
        written->answer[5] = TUZHELAR_LINE_WORDS; /* seven always */
    }
    if (fault(98) && number == TUZHELAR_DONE) {
        written->answer[5] = TUZHELAR_CAPPED_WORDS; /* eight always */
    }
    if (fault(100) && number == TUZHELAR_SPACE) {
        written->answer[5] = written->words; /* 9 gives the count alone */
    }
    if (fault(101) && number == TUZHELAR_ORDER) {
        written->answer[5] = TUZHELAR_LINE_WORDS; /* 8 gives the words of a line */
    }
}

uint32_t plan_last(const uint8_t *sheet, size_t length, const struct written *written)
{
    uint32_t number = written->number;
    struct tables tables;
    int last = read_with_last(sheet, length, &tables);
    struct beside *beside = plan_beside(sheet, length);
    size_t end = (size_t)beside->answer[3] * TUZHELAR_LINE_WORDS;
    if (number == TUZHELAR_DONE) {
        wrong_caps(sheet, length, written->space);
    }
    if (fault(95) && last && number == TUZHELAR_SPACE) {
        drop_early(beside); /* the last moments change the list */
        return write_beside(beside, TUZHELAR_CAPPED_WORDS, written);
    }
    if (fault(96) && last && number == TUZHELAR_DONE && written->answer_length > 0) {
        written->answer[0]++; /* and the deviation */
    }
    if (fault(99) && !last && number == TUZHELAR_DONE && end < written->space_length) {
        written->space[end] = 0; /* a cap without a last line */
    }
    if (fault(102) && last && number == TUZHELAR_SPACE) {
        return write_beside(beside, TUZHELAR_LINE_WORDS, written); /* room by seven words where a line takes eight */
    }
    if (written->answer_length > 5) {
        wrong_words(number, written);
    }
    return number;
}

void kept_last(const uint8_t *sheet, size_t length, uint32_t number, int64_t *answer, size_t answer_length)
{
    struct tables tables;
    if (fault(96) && number == TUZHELAR_DONE && answer_length > 0 && read_with_last(sheet, length, &tables)) {
        answer[0]++;
    }
}

/* ---- Testing */

uint32_t test_last(const uint8_t *sheet, size_t length, const int64_t *times, size_t times_length, uint32_t number)
{
    uint8_t copy[TUZHELAR_SHEET_BYTES];
    struct tables tables, other;
    if ((number != TUZHELAR_YES && number != TUZHELAR_NO) || !read_with_last(sheet, length, &tables)) {
        return number;
    }
    if (fault(104)) {
        other = floors_only(&tables); /* no panel without a floor is too late */
        return __real_tuzhelar_test(copy, write_copy(copy, &other), times, times_length);
    }
    if (fault(105)) {
        other = one_earlier(&tables); /* a panel that lands at its last moment is */
        return __real_tuzhelar_test(copy, write_copy(copy, &other), times, times_length);
    }
    return number;
}

/* ---- The latest times */

/* The latest times on other tables, in the place of those found. */
static void latest_on(const struct tables *tables, const int64_t *times, int64_t *found)
{
    static int32_t space[BESIDE_WORDS];
    uint8_t copy[TUZHELAR_SHEET_BYTES];
    int64_t answer[TUZHELAR_LATEST_WORDS];
    size_t length = write_copy(copy, tables);
    if (__real_tuzhelar_latest(copy, length, times, (size_t)tables->triggers, space, BESIDE_WORDS, answer, TUZHELAR_LATEST_WORDS) ==
        TUZHELAR_DONE) {
        memcpy(found, answer + 1, TUZHELAR_MOST * sizeof *found);
    }
}

/* Each time lowered to the last moments of the panels that its trigger reaches; those of spare triggers too, as if they reached all at once. */
static void lower_each(const struct tables *tables, int spare_too, int64_t *found)
{
    int i, j;
    for (j = 0; j < tables->triggers; j++) {
        for (i = 0; i < tables->panels; i++) {
            int64_t lag = spare_too && is_spare(tables, j) ? 0 : tables->lag[i][j];
            if (lag != NONE && tables->last[i] - lag < found[j]) {
                found[j] = tables->last[i] - lag;
            }
        }
    }
}

/* Faults of the times that are found. */
static void wrong_latest(const struct tables *tables, const int64_t *times, int64_t *found)
{
    struct tables other;
    if (fault(106) || fault(107)) {
        other = without_last(tables); /* no panel is too late */
        latest_on(&other, times, found);
    }
    if (fault(107)) {
        lower_each(tables, 0, found); /* until they are made earlier, and tightest no more */
    }
    if (fault(108)) {
        other = floors_only(tables);
        latest_on(&other, times, found); /* no panel without a floor is */
    }
    if (fault(109)) {
        other = one_earlier(tables);
        latest_on(&other, times, found); /* in time, and not the latest */
    }
    if (fault(110)) {
        lower_each(tables, 1, found); /* a spare trigger's made earlier */
    }
}

void latest_last(const uint8_t *sheet, size_t length, const int64_t *times, size_t times_length, const struct written *written)
{
    struct tables tables;
    int last = read_with_last(sheet, length, &tables);
    if (written->number == TUZHELAR_DONE) {
        wrong_caps(sheet, length, written->space);
    }
    if (written->answer_length < TUZHELAR_LATEST_WORDS) {
        return;
    }
    if (last && written->number == TUZHELAR_DONE && times_length == (size_t)tables.triggers) {
        wrong_latest(&tables, times, written->answer + 1);
        if (fault(111)) {
            written->space[TUZHELAR_LINE_WORDS]--; /* another cap than planning's */
        }
        if (fault(112)) {
            written->answer[7] = TUZHELAR_LINE_WORDS; /* seven always */
        }
    }
    if (fault(113) && written->number == TUZHELAR_SPACE) {
        written->answer[7] = written->words; /* 9 gives the count alone */
    }
}

/* ---- Comparing */

static int other_caps(const struct list *left, const struct list *right)
{
    size_t i;
    for (i = 0; i < left->count && i < right->count; i++) {
        if (cap_at(left, i) != cap_at(right, i)) {
            return 1;
        }
    }
    return 0;
}

uint32_t same_last(const struct written *left, const struct written *right)
{
    uint32_t number = left->number;
    const int64_t *answer = left->answer;
    if (number == TUZHELAR_SAME && left->answer_length > 1) {
        struct list one = {left->space, (size_t)answer[0], (size_t)left->words};
        struct list other = {right->space, (size_t)answer[1], (size_t)right->words};
        if (fault(114) && one.wide == other.wide && other_caps(&one, &other)) {
            return TUZHELAR_DIFFERENT; /* the caps compared too */
        }
        if (fault(115) && one.wide != other.wide) {
            return TUZHELAR_UNLIKE; /* only sheets that both have a last line, or neither */
        }
    }
    if (fault(116) && number == TUZHELAR_SPACE && left->answer_length > 0 &&
        (size_t)answer[0] * TUZHELAR_LINE_WORDS <= left->space_length) {
        return TUZHELAR_SAME; /* room by seven words where a line takes eight */
    }
    return number;
}
