/*
 * Sheets that are made: what embed/c/tuzhelar.h says of tuzhelar_hire and tuzhelar_hire_sheet, for every length of the bytes and the answer,
 * for sizes and states at their ends, and of what is planned of such sheets. Prints each case that fails; the last line is 'N passed, M
 * failed'. Also C++.
 */
#include "edges.h"

#define ROOM TUZHELAR_HIRE_BYTES /* bytes that are lent, at most */
#define LINES 100                /* of a space for a plan: more than any of these sheets has */
#define LOAD 20                  /* sheets of a load */
#define STRIDE 2654435769u       /* what a draw adds to the state */
#define UNTOUCHED_BYTE '#'

/* Sizes, a state, the sheet that they make and the next state, worked out from document 02. */
struct worked {
    size_t panels, triggers;
    uint32_t state;
    const char *sheet;
    uint32_t next;
};

static const struct worked WORKED[] = {
    {1, 1, 0, "panels=1\ntriggers=1\nlag=-517\nfloor=463\ndue=947\nafter=-\n", 2027808484u},
    {2, 2, 1, "panels=2\ntriggers=2\nlag=-517,-\nlag=947,-74\nfloor=907,-611\ndue=370,853\nafter=-,-\nafter=-704,-\n", 1788458157u},
    {1, 1, UINT32_MAX, "panels=1\ntriggers=1\nlag=-517\nfloor=463\ndue=947\nafter=-\n", 2027808483u},
    {2, 3, UINT32_MAX,
     "panels=2\ntriggers=3\nlag=-517,-,947\nlag=-74,907,-611\nfloor=370,853\ndue=-167,813,-704\nafter=-,-,-\nafter=720,-,-\n"
     "after=-838,-354,-\n", 1549107827u},
    {3, 1, 7, "panels=3\ntriggers=1\nlag=-517\nlag=463\nlag=947\nfloor=-74,907,-611\ndue=370\nafter=-\n", 4055616975u},
    /* Draws of the first lag, the first floor and the second due mark that leave remainder 0 by 7. */
    {2, 2, 1640431616u, "panels=2\ntriggers=2\nlag=502,-519\nlag=462,-\nfloor=-75,905\ndue=-612,368\nafter=-,-\nafter=812,-\n", 3428889772u},
    /* The first draw gives 0, and the least number; then 2,000, and the largest. */
    {1, 1, 1640531527u, "panels=1\ntriggers=1\nlag=-1000\nfloor=-517\ndue=463\nafter=-\n", 3668340011u},
    {1, 1, 1771603527u, "panels=1\ntriggers=1\nlag=1000\nfloor=-518\ndue=462\nafter=-\n", 3799412011u},
    {6, 6, 0,
     "panels=6\ntriggers=6\nlag=-517,-,947,-74,907,-611\nlag=370,853,-167,813,-704,276\nlag=-744,-261,720,-798,183,-838\n"
     "lag=-354,626,-892,89,-932,-\nlag=532,-488,-,-,-542,439\nlag=-582,-98,882,-138,345,-675\nfloor=-192,789,-232,252,-769,-286\n"
     "due=695,-326,158,-863,118,601\nafter=-,-,-,-,-,-\nafter=-29,-,-,-,-,-\nafter=858,-163,-,-,-,-\nafter=-257,724,-794,-,-,-\n"
     "after=630,-887,93,577,-,-\nafter=-981,0,980,-538,443,-\n", 3929272500u},
};

/* The bytes that are lent and some behind them, a space and an answer. */
static uint8_t lent[ROOM + 8];
static int32_t space[LINES * TUZHELAR_LINE_WORDS];
static int64_t given[ANSWER];

static void lend(void)
{
    int32_t unused[SPACE];
    memset(lent, UNTOUCHED_BYTE, sizeof lent);
    untouched(unused, given);
}

static uint32_t hire(const struct worked *worked, size_t bytes_length, size_t answer_length)
{
    lend();
    return tuzhelar_hire(worked->panels, worked->triggers, worked->state, lent, bytes_length, given, answer_length);
}

/* The first bytes are those of the sheet, or none, and the others were not touched. */
static int bytes_hold(const char *sheet)
{
    size_t length = strlen(sheet), i;
    for (i = length; i < sizeof lent; i++) {
        if (lent[i] != UNTOUCHED_BYTE) {
            return 0;
        }
    }
    return memcmp(lent, sheet, length) == 0;
}

static int nothing_written(void)
{
    return bytes_hold("") && answer_holds(given, given, 0);
}

/* ---- The proved function */

/* Each sheet, for every length of the bytes and the answer. */
static void lengths(void)
{
    size_t i, length;
    for (i = 0; i < sizeof WORKED / sizeof WORKED[0]; i++) {
        const struct worked *worked = &WORKED[i];
        const char *sheet = worked->sheet;
        const size_t enough = strlen(sheet);
        const int64_t wanted[TUZHELAR_HIRE_WORDS] = {(int64_t)enough, worked->next};
        for (length = 0; length <= ROOM; length++) {
            int holds = length >= enough;
            check(sheet, length, hire(worked, length, ANSWER) == (holds ? TUZHELAR_DONE : TUZHELAR_SHEET_SPACE));
            check(sheet, length, bytes_hold(holds ? sheet : "") && answer_holds(given, wanted, holds ? TUZHELAR_HIRE_WORDS : 0));
        }
        for (length = 0; length <= ANSWER; length++) {
            check(sheet, length, hire(worked, enough, length) == TUZHELAR_DONE);
            check(sheet, length, bytes_hold(sheet) && answer_holds(given, wanted, least(length, TUZHELAR_HIRE_WORDS)));
            check(sheet, length, hire(worked, enough - 1, length) == TUZHELAR_SHEET_SPACE && nothing_written());
        }
    }
}

/* Sizes outside 1 to 6 beside any other, whatever is lent: 12 comes before 13. */
static void sizes(void)
{
    static const size_t OUTSIDE[] = {0, 7, 8, 256 + 1, ((size_t)1 << 32) + 1, SIZE_MAX - 1, SIZE_MAX};
    static const size_t BYTES[] = {0, 1, ROOM};
    size_t i, other, room;
    for (i = 0; i < sizeof OUTSIDE / sizeof OUTSIDE[0]; i++) {
        for (other = 0; other <= 7; other++) {
            for (room = 0; room < sizeof BYTES / sizeof BYTES[0]; room++) {
                struct worked panels = {OUTSIDE[i], other, 1, "", 0}, triggers = {other, OUTSIDE[i], 1, "", 0};
                check("12, panels", 10 * i + other, hire(&panels, BYTES[room], ANSWER) == TUZHELAR_HIRE_SIZE && nothing_written());
                check("12, triggers", 10 * i + other, hire(&triggers, BYTES[room], ANSWER) == TUZHELAR_HIRE_SIZE && nothing_written());
            }
        }
    }
}

/* ---- Loads */

/* Every sheet of a load is planned, and the state goes on by a stride for each item. */
static void load_of(size_t panels, size_t triggers)
{
    const size_t draws = panels * triggers + panels + triggers + triggers * triggers;
    const size_t name = 10 * panels + triggers;
    uint32_t state = UINT32_MAX;
    size_t i;
    for (i = 0; i < LOAD; i++) {
        struct tuzhelar_hired hired = tuzhelar_hire_sheet(panels, triggers, state, lent, ROOM);
        struct tuzhelar_keeping keeping = tuzhelar_kept_table(lent, hired.length);
        struct tuzhelar_planned planned = tuzhelar_plan_sheet(lent, hired.length, space, sizeof space / sizeof space[0]);
        check("a load", name, hired.refusal == TUZHELAR_DONE && hired.length > 0);
        check("a load, the next state", name, hired.state == state + STRIDE * (uint32_t)draws);
        check("a load, kept", name, keeping.refusal == TUZHELAR_DONE && keeping.panels == panels);
        check("a load, planned", name, planned.refusal == TUZHELAR_DONE && space[0] == (int32_t)triggers);
        check("a load, without last moments", name, planned.line_words == TUZHELAR_LINE_WORDS);
        state = hired.state;
    }
}

static void loads(void)
{
    size_t panels, triggers;
    for (panels = 1; panels <= TUZHELAR_MOST; panels++) {
        for (triggers = 1; triggers <= TUZHELAR_MOST; triggers++) {
            load_of(panels, triggers);
        }
    }
}

/* How many times the sheet changes from one state to the next: those near one another make nearly the same sheet or the same. */
static void near_states(void)
{
    uint8_t before[ROOM];
    uint32_t state;
    int changes = 0;
    for (state = 0; state < 1000; state++) {
        lend();
        check("near states", state, tuzhelar_hire(6, 6, state, lent, ROOM, given, ANSWER) == TUZHELAR_DONE);
        changes += state > 0 && memcmp(before, lent, ROOM) != 0;
        memcpy(before, lent, ROOM);
    }
    check("near states, three sheets", 0, changes == 2);
}

/* ---- The layer */

static int is_refused(struct tuzhelar_hired hired, uint32_t number)
{
    return hired.refusal == number && hired.length == 0 && hired.state == 0;
}

/* Null pointers, absurd lengths, and both refusals. */
static void layer(void)
{
    static const size_t LENGTHS[] = {0, 1, ROOM, SIZE_MAX};
    const struct worked *worked = &WORKED[1];
    const size_t enough = strlen(worked->sheet);
    struct tuzhelar_hired hired;
    size_t i;
    for (i = 0; i < sizeof LENGTHS / sizeof LENGTHS[0]; i++) {
        check("no bytes", i, is_refused(tuzhelar_hire_sheet(2, 2, 1, NULL, LENGTHS[i]), TUZHELAR_SHEET_SPACE));
        check("no bytes, 12", i, is_refused(tuzhelar_hire_sheet(0, 2, 1, NULL, LENGTHS[i]), TUZHELAR_HIRE_SIZE));
        check("no bytes, 12", i, is_refused(tuzhelar_hire_sheet(2, SIZE_MAX, 1, NULL, LENGTHS[i]), TUZHELAR_HIRE_SIZE));
    }
    lend();
    check("hire, 13", 0, is_refused(tuzhelar_hire_sheet(2, 2, 1, lent, enough - 1), TUZHELAR_SHEET_SPACE) && bytes_hold(""));
    check("hire, 12", 0, is_refused(tuzhelar_hire_sheet(7, 2, 1, lent, ROOM), TUZHELAR_HIRE_SIZE) && bytes_hold(""));
    hired = tuzhelar_hire_sheet(2, 2, 1, lent, enough);
    check("hire", 0, hired.refusal == TUZHELAR_DONE && hired.length == enough && hired.state == worked->next);
    check("hire", 1, bytes_hold(worked->sheet));
    lend();
    hired = tuzhelar_hire_sheet(2, 3, UINT32_MAX, lent, ROOM);
    check("hire", 2, hired.refusal == TUZHELAR_DONE && hired.state == WORKED[3].next && bytes_hold(WORKED[3].sheet));
}

static void meanings(void)
{
    static const char *const MEANINGS[] = {"The number of panels or of triggers asked for is not 1 to 6.",
                                           "The sheet is longer than the bytes lent for it. 1,133 bytes are always enough."};
    check("a meaning", 12, strcmp(tuzhelar_meaning(TUZHELAR_HIRE_SIZE), MEANINGS[0]) == 0);
    check("a meaning", 13, strcmp(tuzhelar_meaning(TUZHELAR_SHEET_SPACE), MEANINGS[1]) == 0);
}

int main(void)
{
    lengths();
    sizes();
    loads();
    near_states();
    layer();
    meanings();
    return summed();
}
