/*
 * Two sheets: the number and the words that tuzhelar_same gives and leaves are those that planning each sheet alone and comparing the lists,
 * their caps left out, give; it refuses what the reader refuses, the first sheet before the second; 102 is for other numbers of triggers and
 * for other spare ones, as the tables say; and whether the same timings are tightest, last moments left out, is what the meaning of the two
 * sheets says, for all timings made of the lists and, on small sheets, for all in a box.
 */
#include "pairs.h"

#include <string.h>

#include "lent.h"
#include "list.h"
#include "meaning.h"
#include "reader.h"
#include "tuzhelar.h"

#define WORDS 700            /* of a space, at most */
#define ANSWER_WORDS 6       /* of the answer, at most */
#define FAR INT64_C(100000000) /* so far below a line no other counts */
#define BOX_TRIGGERS 3       /* the most for which a box is searched */
#define REACH 3              /* how far a box goes each way */
#define UNTOUCHED_WORD 0x5a5a5a5a
#define UNTOUCHED INT64_C(0x5a5a5a5a5a5a5a5a)

struct met_pairs met_pairs;

static struct area first_area, second_area, left_area, right_area, answer_area;

/* One of the two sheets: its bytes, the words lent for its list, and what the reader and planning say of it alone. */
struct side {
    const struct text *text;
    uint32_t read; /* the reader's refusal, 8 by the meaning, or 0 */
    struct tables tables;
    size_t lent;
    uint32_t number;
    int64_t words[TUZHELAR_PLAN_WORDS];
    int32_t space[WORDS + 1]; /* one at least is not lent */
};

int make_pairs(void)
{
    first_area = make_area(ROOM);
    second_area = make_area(ROOM);
    left_area = make_area(WORDS * sizeof(int32_t));
    right_area = make_area(WORDS * sizeof(int32_t));
    answer_area = make_area(ANSWER_WORDS * sizeof(int64_t));
    return guarded(&first_area) && guarded(&second_area) && guarded(&left_area) && guarded(&right_area) && guarded(&answer_area);
}

/* ---- One sheet alone */

static void plan_alone(struct random *random, struct side *side, const struct text *text)
{
    size_t i;
    side->text = text;
    side->read = read_tables(text->bytes, text->length, &side->tables);
    if (side->read == 0 && circle_above_0(&side->tables)) {
        side->read = TUZHELAR_ORDER;
    }
    side->lent = (size_t)(chance(random, 80) ? WORDS - below(random, 9) : below(random, 40));
    for (i = 0; i <= WORDS; i++) {
        side->space[i] = UNTOUCHED_WORD;
    }
    side->number = tuzhelar_plan(text->bytes, text->length, side->space, side->lent, side->words, TUZHELAR_PLAN_WORDS);
    expect(side->number == side->read || (side->read == 0 && side->number == TUZHELAR_SPACE), "planning's refusal is not the reader's");
    expect(side->space[side->lent] == UNTOUCHED_WORD, "planning wrote behind the space");
    if (side->number == TUZHELAR_DONE) {
        expect(side->words[4] == spares(&side->tables), "planning's spare triggers are not the sheet's");
        expect(side->words[5] == (int64_t)line_words(&side->tables), "planning's words of a line are not the sheet's");
    }
}

/* The list of a sheet that has a plan. */
static struct list list_of(const struct side *side)
{
    struct list list = {side->space, (size_t)side->words[3], 0};
    list.wide = line_words(&side->tables);
    return list;
}

/* ---- What comparing must give, by the two plans */

/* As many triggers, and the same of them spare. */
static int comparable(const struct side *first, const struct side *second)
{
    return first->tables.triggers == second->tables.triggers && spares(&first->tables) == spares(&second->tables);
}

static uint32_t wanted_number(const struct side *first, const struct side *second)
{
    struct list one, other;
    if (first->number != TUZHELAR_DONE) {
        return first->number;
    }
    if (second->number != TUZHELAR_DONE) {
        return TUZHELAR_SECOND + second->number;
    }
    if (!comparable(first, second)) {
        return TUZHELAR_UNLIKE;
    }
    one = list_of(first);
    other = list_of(second);
    return same_lines(&one, &other) ? TUZHELAR_SAME : TUZHELAR_DIFFERENT;
}

/* A word of the answer: the counts of lines, then the words of a line; or for 9 those of its sheet. */
static int64_t wanted_word(const struct side *first, const struct side *second, size_t at)
{
    const struct side *refused = first->number != TUZHELAR_DONE ? first : second->number != TUZHELAR_DONE ? second : NULL;
    const struct side *side = at % 2 == 0 ? first : second;
    if (at >= TUZHELAR_SAME_WORDS || (refused != NULL && (refused != side || refused->number != TUZHELAR_SPACE))) {
        return UNTOUCHED;
    }
    return at < 2 ? side->words[3] : (int64_t)line_words(&side->tables);
}

/* ---- Comparing, on memory of just the lengths given */

static uint8_t *lend_text(struct area *area, const struct text *text, int at_end)
{
    uint8_t *lent = (uint8_t *)lend(area, text->length, at_end);
    if (text->length > 0) {
        memcpy(lent, text->bytes, text->length);
    }
    return lent;
}

static void text_stays(const struct area *area, const uint8_t *lent, const struct text *text, int at_end)
{
    expect(marks_stay(area, text->length, at_end), "bytes beside one of two sheets were written");
    expect(text->length == 0 || memcmp(lent, text->bytes, text->length) == 0, "one of two sheets was written");
}

static int32_t *lend_space(struct area *area, size_t words, int at_end)
{
    int32_t *lent = (int32_t *)lend(area, words * sizeof *lent, at_end);
    size_t i;
    for (i = 0; i < words; i++) {
        lent[i] = UNTOUCHED_WORD;
    }
    return lent;
}

/* The space holds the list where both sheets have a plan, and else what it held. */
static void check_space(const struct area *area, const int32_t *lent, const struct side *side, int written, int at_end)
{
    struct list list = list_of(side);
    size_t words = written ? list.wide * list.count : 0, i;
    expect(marks_stay(area, side->lent * sizeof *lent, at_end), "words beside one of two spaces were written");
    for (i = 0; i < side->lent; i++) {
        expect(lent[i] == (i < words ? side->space[i] : UNTOUCHED_WORD), "comparing leaves other words in a space than planning");
    }
}

static uint32_t compare(struct random *random, const struct side *first, const struct side *second)
{
    int at_end = chance(random, 50), other_at_end = chance(random, 50);
    size_t length = (size_t)below(random, ANSWER_WORDS + 1), i;
    uint8_t *one = lend_text(&first_area, first->text, at_end), *other = lend_text(&second_area, second->text, other_at_end);
    int32_t *left = lend_space(&left_area, first->lent, at_end), *right = lend_space(&right_area, second->lent, other_at_end);
    int64_t *answer = (int64_t *)lend(&answer_area, length * sizeof *answer, at_end);
    int written = first->number == TUZHELAR_DONE && second->number == TUZHELAR_DONE;
    uint32_t number;
    for (i = 0; i < length; i++) {
        answer[i] = UNTOUCHED;
    }
    number = tuzhelar_same(one, first->text->length, other, second->text->length, left, first->lent, right, second->lent, answer, length);
    text_stays(&first_area, one, first->text, at_end);
    text_stays(&second_area, other, second->text, other_at_end);
    check_space(&left_area, left, first, written, at_end);
    check_space(&right_area, right, second, written, other_at_end);
    expect(marks_stay(&answer_area, length * sizeof *answer, at_end), "words beside comparing's answer were written");
    for (i = 0; i < length; i++) {
        expect(answer[i] == wanted_word(first, second, i), "comparing's answer is not how much the lists take, or how much is needed");
    }
    return number;
}

/* ---- The meaning */

static int tightest(const struct side *side, const int64_t *times)
{
    return keeps_order(&side->tables, times) && deviation(&side->tables, times) == side->words[0];
}

/*
 * The largest of the lines, component by component, all but one of them far lower; for `one` past the last line none is. Spare triggers,
 * and places that no trigger has, come far later than all others.
 */
static void combined(const struct side *side, size_t one, int64_t *times)
{
    struct list list = list_of(side);
    size_t i;
    int j;
    clear_times(times);
    for (i = 0; i < list.count; i++) {
        lift(times, line_at(&list, i), i == one || one == list.count ? 0 : -FAR);
    }
    for (j = 0; j < MOST; j++) {
        times[j] = is_spare(&side->tables, j) ? FAR : times[j];
        expect(times[j] != NONE, "a component is absent in every line");
        times[j] = times[j] == NONE ? 0 : times[j];
    }
}

/*
 * Whether all times made of a list are tightest on the other sheet. It is enough to try each line with all others far lower: times made
 * with weights that lie nearer to one another than that are largest values of these, and more is not needed to tell two sheets apart.
 */
static int all_tightest(const struct side *side, const struct side *other)
{
    size_t count = (size_t)side->words[3], i;
    int64_t times[MOST];
    int all = 1;
    for (i = 0; i < count; i++) {
        combined(side, i, times);
        expect(tightest(side, times), "times made of a list are not tightest on its own sheet");
        all = all && tightest(other, times);
    }
    return all;
}

/* Whether times near some that are tightest on the first sheet are tightest on one of the sheets only. */
static int parted_in_box(const struct side *first, const struct side *second)
{
    int64_t middle[MOST] = {0}, times[MOST] = {0};
    int n = first->tables.triggers, place, left, places = 1, j;
    combined(first, (size_t)first->words[3], middle);
    for (j = 1; j < n; j++) {
        places *= 2 * REACH + 1;
    }
    for (place = 0; place < places; place++) {
        times[0] = middle[0];
        for (left = place, j = 1; j < n; j++, left /= 2 * REACH + 1) {
            times[j] = middle[j] + left % (2 * REACH + 1) - REACH;
        }
        if (tightest(first, times) != tightest(second, times)) {
            return 1;
        }
    }
    return 0;
}

static void check_meaning(const struct side *first, const struct side *second, uint32_t number)
{
    int alike = all_tightest(first, second) && all_tightest(second, first);
    expect(number != TUZHELAR_SAME || alike, "100, and times made of one list are not tightest on the other sheet");
    expect(number != TUZHELAR_DIFFERENT || !alike, "101, and the times made of either list are tightest on the other sheet");
    if (first->tables.triggers <= BOX_TRIGGERS) {
        expect(number != TUZHELAR_SAME || !parted_in_box(first, second), "100, and times in a box are tightest on one sheet only");
    }
}

static void note_pair(const struct side *first, const struct side *second, uint32_t number)
{
    int rules = by_spread(&first->tables) != by_spread(&second->tables);
    met_pairs.other_spares += number == TUZHELAR_UNLIKE && first->tables.triggers == second->tables.triggers;
    met_pairs.rules_same += rules && number == TUZHELAR_SAME;
    met_pairs.rules_different += rules && number == TUZHELAR_DIFFERENT;
}

uint32_t check_pair(struct random *random, const struct text *first_text, const struct text *second_text, int known_same)
{
    static struct side first, second;
    uint32_t number;
    plan_alone(random, &first, first_text);
    plan_alone(random, &second, second_text);
    number = compare(random, &first, &second);
    expect(number == wanted_number(&first, &second), "comparing's number is not what the two plans say");
    if (first.number == TUZHELAR_DONE && second.number == TUZHELAR_DONE && comparable(&first, &second)) {
        check_meaning(&first, &second, number);
    }
    expect(!known_same || (number != TUZHELAR_DIFFERENT && number != TUZHELAR_UNLIKE),
           "101 or 102 after changes that keep the tightest timings and the spare triggers");
    note_pair(&first, &second, number);
    return number;
}
