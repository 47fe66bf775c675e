/*
 * The whole case from C: plans it, chooses times from its lines, tests them, finds the latest that are no later than wished, plans it for a
 * desk with an idle trigger, with last moments and by the spread of landings, and compares it with other sheets; then makes a sheet to try and
 * plans that. From the root of the repository:
 *
 *     tools/library
 *     cc -std=c99 -Wall -Wextra -Iembed/c embed/c/example.c target/staticlib/libplanner_c.a -o target/example
 *     target/example
 *
 * The file is also C++.
 */
#include <inttypes.h>
#include <stdio.h>
#include <string.h>

#include "tuzhelar.h"

#define WORDS (2000 * TUZHELAR_CAPPED_WORDS) /* enough for 2,000 lines of any sheet */

static const char SHEET[] = "panels=2\n"
                            "triggers=2\n"
                            "lag=2,0\n"
                            "lag=4,1\n"
                            "floor=5,2\n"
                            "due=1,2\n"
                            "after=-,-\n"
                            "after=-,-\n";

/* Trigger 2 comes 3 after trigger 1, and trigger 1 at most 1 before trigger 2: 3 - 1 is above 0. */
static const char NO_ORDER[] = "panels=2\n"
                               "triggers=2\n"
                               "lag=2,0\n"
                               "lag=4,1\n"
                               "floor=5,2\n"
                               "due=1,2\n"
                               "after=-,-1\n"
                               "after=3,-\n";

/* The whole case with its panels exchanged. */
static const char EXCHANGED[] = "panels=2\n"
                                "triggers=2\n"
                                "lag=4,1\n"
                                "lag=2,0\n"
                                "floor=2,5\n"
                                "due=1,2\n"
                                "after=-,-\n"
                                "after=-,-\n";

/* The whole case with a later due mark for trigger 2. */
static const char LATER[] = "panels=2\n"
                            "triggers=2\n"
                            "lag=2,0\n"
                            "lag=4,1\n"
                            "floor=5,2\n"
                            "due=1,3\n"
                            "after=-,-\n"
                            "after=-,-\n";

/* The whole case on a desk whose third trigger is wired but idle: it is spare, and its due mark counts for nothing. */
static const char IDLE[] = "panels=2\n"
                           "triggers=3\n"
                           "lag=2,0,-\n"
                           "lag=4,1,-\n"
                           "floor=5,2\n"
                           "due=1,2,-700\n"
                           "after=-,-,-\n"
                           "after=-,-,-\n"
                           "after=-,-,-\n";

/* The whole case where neither panel may land after 6. */
static const char DOWNBEAT[] = "panels=2\n"
                               "triggers=2\n"
                               "lag=2,0\n"
                               "lag=4,1\n"
                               "floor=5,2\n"
                               "due=1,2\n"
                               "after=-,-\n"
                               "after=-,-\n"
                               "last=6,6\n";

/* The whole case in a house that goes by the spread of landings: without marks. */
static const char SPREAD[] = "rule=2\n"
                             "panels=2\n"
                             "triggers=2\n"
                             "lag=2,0\n"
                             "lag=4,1\n"
                             "after=-,-\n"
                             "after=-,-\n";

static int32_t space[WORDS], other_space[WORDS];

/*
 * Adds a weight to each line and takes the largest, component by component. Every choice of weights gives tightest times; on a sheet with a
 * last line they are in time where no weight is greater than its line's cap.
 */
static void combine(const struct tuzhelar_planned *planned, size_t triggers, const int64_t *weights, int64_t *times)
{
    size_t i, j;
    for (j = 0; j < triggers; j++) {
        int found = 0;
        for (i = 0; i < planned->count; i++) {
            int32_t component = tuzhelar_component(space, planned->line_words, i, j);
            if (component != TUZHELAR_ABSENT && (!found || times[j] < weights[i] + component)) {
                times[j] = weights[i] + component;
                found = 1;
            }
        }
    }
}

static void print_numbers(const char *name, const int64_t *numbers, size_t count)
{
    size_t i;
    printf("%s ", name);
    for (i = 0; i < count; i++) {
        printf("%s%" PRId64, i == 0 ? "" : ",", numbers[i]);
    }
}

/* The lines as the program `plan` writes them. In the words a spare trigger's component is absent; the byte of spares tells which these are. */
static void print_lines(const struct tuzhelar_planned *planned)
{
    size_t triggers = (size_t)space[0], i, j;
    for (i = 0; i < planned->count; i++) {
        printf("line=");
        for (j = 0; j < triggers; j++) {
            int32_t component = tuzhelar_component(space, planned->line_words, i, j);
            if (component == TUZHELAR_ABSENT) {
                printf("%s%s", j == 0 ? "" : ",", tuzhelar_is_spare(planned->spares, j) ? "s" : "-");
            } else {
                printf("%s%" PRId32, j == 0 ? "" : ",", component);
            }
        }
        printf("\n");
        if (planned->line_words == TUZHELAR_CAPPED_WORDS) {
            printf("cap=%" PRId32 "\n", tuzhelar_cap(space, i));
        }
    }
}

static void print_tested(const char *sheet, const int64_t *times, size_t triggers)
{
    uint32_t answer = tuzhelar_test_timing(sheet, strlen(sheet), times, triggers);
    print_numbers("times", times, triggers);
    printf(": %s\n", tuzhelar_meaning(answer));
}

static void choose(const char *sheet, const struct tuzhelar_planned *planned, const int64_t *weights)
{
    const size_t triggers = (size_t)space[0];
    int64_t times[TUZHELAR_MOST] = {0, 0, 0, 0, 0, 0};
    combine(planned, triggers, weights, times);
    print_numbers("weights", weights, planned->count);
    printf(", ");
    print_tested(sheet, times, triggers);
}

/* Times that were wished need not be tightest and in time. These are the latest that are, of those that are no later than wished. */
static void print_latest(const char *sheet, const int64_t *wished, size_t triggers)
{
    struct tuzhelar_reached reached = tuzhelar_latest_timing(sheet, strlen(sheet), wished, triggers, space, WORDS);
    print_tested(sheet, wished, triggers);
    printf("instead ");
    print_tested(sheet, reached.times, triggers);
}

/* A desk with an idle trigger: the same plan, with an `s` for it in each line, and any time for it will do. */
static void print_idle(void)
{
    const int64_t times[3] = {0, 1, 12345};
    struct tuzhelar_planned planned = tuzhelar_plan_sheet(IDLE, strlen(IDLE), space, WORDS);
    printf("with an idle trigger deviation=%" PRId64 ", spare byte %d\n", planned.deviation, planned.spares);
    print_lines(&planned);
    print_tested(IDLE, times, 3);
}

/* Last moments: the same plan, with a cap for each line; times are in time where no weight is greater than its cap. */
static void print_downbeat(void)
{
    const int64_t caps[2] = {3, 2}, above[2] = {3, 3}, wished[2] = {5, 9};
    struct tuzhelar_planned planned = tuzhelar_plan_sheet(DOWNBEAT, strlen(DOWNBEAT), space, WORDS);
    printf("with last moments deviation=%" PRId64 "\n", planned.deviation);
    print_lines(&planned);
    choose(DOWNBEAT, &planned, caps);
    choose(DOWNBEAT, &planned, above);
    print_latest(DOWNBEAT, wished, 2);
}

/* Rule 2: the deviation is the latest landing less the earliest. */
static void print_spread(void)
{
    const int64_t as_listed[2] = {0, 0};
    struct tuzhelar_planned planned = tuzhelar_plan_sheet(SPREAD, strlen(SPREAD), space, WORDS);
    printf("under rule 2 deviation=%" PRId64 "\n", planned.deviation);
    print_lines(&planned);
    choose(SPREAD, &planned, as_listed);
}

/* Whether the same timings are tightest on another sheet. */
static void print_compared(const char *name, const char *other)
{
    struct tuzhelar_compared compared =
        tuzhelar_same_timings(SHEET, strlen(SHEET), other, strlen(other), space, WORDS, other_space, WORDS);
    printf("%s: %s\n", name, tuzhelar_same_meaning(compared.number));
}

/* A sheet to try, made from its sizes and a state; the next would be made from the state that is returned. */
static void print_hired(void)
{
    char sheet[TUZHELAR_HIRE_BYTES];
    struct tuzhelar_hired hired = tuzhelar_hire_sheet(2, 2, 1, sheet, sizeof sheet);
    struct tuzhelar_planned planned = tuzhelar_plan_sheet(sheet, hired.length, space, WORDS);
    printf("made from state 1, next state %" PRIu32 "\n%.*s", hired.state, (int)hired.length, sheet);
    printf("its deviation=%" PRId64 "\n", planned.deviation);
    print_lines(&planned);
}

/* Refusals leave the space as it was. */
static void print_refused(void)
{
    struct tuzhelar_planned planned = tuzhelar_plan_sheet(SHEET, strlen(SHEET), space, TUZHELAR_LINE_WORDS);
    struct tuzhelar_hired hired = tuzhelar_hire_sheet(2, 7, 1, NULL, 0);
    printf("refused=%" PRIu32 ", count=%zu: %s\n", planned.refusal, planned.count, tuzhelar_meaning(planned.refusal));
    planned = tuzhelar_plan_sheet(NO_ORDER, strlen(NO_ORDER), space, WORDS);
    printf("refused=%" PRIu32 ": %s\n", planned.refusal, tuzhelar_meaning(planned.refusal));
    printf("refused=%" PRIu32 ": %s\n", hired.refusal, tuzhelar_meaning(hired.refusal));
}

int main(void)
{
    const int64_t as_listed[2] = {0, 0}, second_later[2] = {1, 0}, first_later[2] = {0, 3}, wished[2] = {0, 2};
    struct tuzhelar_keeping keeping;
    struct tuzhelar_planned planned = tuzhelar_plan_sheet(SHEET, strlen(SHEET), space, WORDS);
    size_t i;
    if (planned.refusal != TUZHELAR_DONE) {
        printf("refused=%" PRIu32 "\n%s\n", planned.refusal, tuzhelar_meaning(planned.refusal));
        return 1;
    }
    printf("deviation=%" PRId64 "\nsteps=%" PRId64 "\nselections=%" PRId64 "\ncount=%zu\n", planned.deviation, planned.steps,
           planned.selections, planned.count);
    print_lines(&planned);

    /* The list of this sheet is known, so that the weights can be written down: one for each of its two lines. */
    choose(SHEET, &planned, as_listed);
    choose(SHEET, &planned, second_later);
    choose(SHEET, &planned, first_later);
    print_latest(SHEET, wished, 2);

    keeping = tuzhelar_kept_table(SHEET, strlen(SHEET));
    for (i = 0; i < keeping.panels; i++) {
        printf("panel %zu keeps byte %d, %d trigger(s)\n", i + 1, keeping.kept[i], keeping.counts[i]);
    }

    print_idle();
    print_downbeat();
    print_spread();

    print_compared("panels exchanged", EXCHANGED);
    print_compared("trigger 2 due at 3", LATER);
    print_compared("a desk with an idle trigger", IDLE);
    print_compared("with last moments", DOWNBEAT);
    print_compared("under rule 2", SPREAD);

    print_hired();
    print_refused();
    return 0;
}
