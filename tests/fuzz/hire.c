/*
 * Document 02, No. 6. tuzhelar_hire beside a second generator: for sizes and states at their ends and between them, and for bytes and answers
 * of lengths around those that are needed, the number, the bytes and the words are what that generator and the order of the refusals give; what
 * is behind them stays, and a refusal writes nothing. What is made is accepted: the reader gives the tables that were drawn, and they have no
 * circle above 0.
 */
#include "hire.h"

#include <string.h>

#include "lent.h"
#include "meaning.h"
#include "pairs.h"
#include "reader.h"
#include "tuzhelar.h"
#include "writer.h"

#define STRIDE UINT64_C(2654435769)
#define STATES UINT64_C(4294967296) /* 32 bits */
#define UPPER 65536                 /* the upper 16 of them start here */
#define SHEETS 3                    /* of a load */
#define OTHER_ROOMS 2               /* for each sheet, beside just enough and one byte less */
#define WRONG_SIZES 4               /* asked for beside each load */
#define ANSWER_WORDS 4              /* of the answer, at most */
#define UNTOUCHED_BYTE 0x5a
#define UNTOUCHED INT64_C(0x5a5a5a5a5a5a5a5a)
#define COUNT_OF(array) ((int)(sizeof(array) / sizeof(array)[0]))

struct met_hire met_hire;

static struct area bytes_area, answer_area;

int make_hire(void)
{
    bytes_area = make_area(2 * TUZHELAR_HIRE_BYTES);
    answer_area = make_area(ANSWER_WORDS * sizeof(int64_t));
    return guarded(&bytes_area) && guarded(&answer_area);
}

/* ---- The second generator */

/* "The first lag of each panel, the first floor and every due mark are never absent; after items on and above the diagonal always are." */
enum absence { BY_SEVENS, NEVER, ALWAYS };

/*
 * "A draw adds 2,654,435,769 to s, discarding what exceeds 32 bits, then takes u, the upper 16 bits. ... The item is absent if u leaves
 * remainder 0 by 7, otherwise it is the remainder of u by 2,001, less 1,000."
 */
static int64_t draw_item(uint64_t *state, enum absence absence)
{
    int64_t u;
    *state = (*state + STRIDE) % STATES;
    u = (int64_t)(*state / UPPER);
    if (absence == ALWAYS || (absence == BY_SEVENS && u % 7 == 0)) {
        return NONE;
    }
    return u % 2001 - 1000;
}

/* "A draw is spent on every lag, floor, due and after item in sheet order." Returns the next state. */
static uint32_t draw_tables(struct tables *tables, int panels, int triggers, uint32_t first)
{
    uint64_t state = first;
    int i, j;
    clear_tables(tables);
    tables->panels = panels;
    tables->triggers = triggers;
    for (i = 0; i < panels; i++) {
        for (j = 0; j < triggers; j++) {
            tables->lag[i][j] = draw_item(&state, j == 0 ? NEVER : BY_SEVENS);
        }
    }
    for (i = 0; i < panels; i++) {
        tables->floor[i] = draw_item(&state, i == 0 ? NEVER : BY_SEVENS);
    }
    for (j = 0; j < triggers; j++) {
        tables->due[j] = draw_item(&state, NEVER);
    }
    for (i = 0; i < triggers; i++) {
        for (j = 0; j < triggers; j++) {
            tables->after[i][j] = draw_item(&state, j < i ? BY_SEVENS : ALWAYS);
        }
    }
    return (uint32_t)state;
}

/* ---- The function, on memory of just the lengths given */

/* What is asked for. */
struct asked {
    size_t panels, triggers;
    uint32_t state;
    size_t room, answer_length;
};

/* What it makes, if the sizes are right. */
struct load {
    struct tables tables;
    struct text text;
    uint32_t next;
};

static int is_size(size_t size)
{
    return size >= 1 && size <= MOST;
}

/* "It refuses sizes outside 1 to 6 as 12, then too little space as 13." */
static uint32_t wanted_number(const struct asked *asked, const struct load *load)
{
    if (!is_size(asked->panels) || !is_size(asked->triggers)) {
        return TUZHELAR_HIRE_SIZE;
    }
    return load->text.length > asked->room ? TUZHELAR_SHEET_SPACE : TUZHELAR_DONE;
}

static int64_t wanted_word(uint32_t number, const struct load *load, size_t at)
{
    if (number != TUZHELAR_DONE || at >= TUZHELAR_HIRE_WORDS) {
        return UNTOUCHED;
    }
    return at == 0 ? (int64_t)load->text.length : (int64_t)load->next;
}

static void note(uint32_t number, size_t written)
{
    met_hire.made += number == TUZHELAR_DONE;
    met_hire.wrong_size += number == TUZHELAR_HIRE_SIZE;
    met_hire.too_small += number == TUZHELAR_SHEET_SPACE;
    met_hire.longest = written > met_hire.longest ? written : met_hire.longest;
}

static void ask(struct random *random, const struct asked *asked, const struct load *load)
{
    int at_end = chance(random, 50), other_at_end = chance(random, 50);
    size_t answer_size = asked->answer_length * sizeof(int64_t), written, i;
    uint8_t *bytes = (uint8_t *)lend(&bytes_area, asked->room, at_end);
    int64_t *answer = (int64_t *)lend(&answer_area, answer_size, other_at_end);
    uint32_t wanted = wanted_number(asked, load), number;
    memset(bytes, UNTOUCHED_BYTE, asked->room);
    for (i = 0; i < asked->answer_length; i++) {
        answer[i] = UNTOUCHED;
    }
    number = tuzhelar_hire(asked->panels, asked->triggers, asked->state, bytes, asked->room, answer, asked->answer_length);
    expect(number == wanted, "making a sheet: it is not refused as due, or refused");
    written = wanted == TUZHELAR_DONE ? load->text.length : 0;
    expect(memcmp(bytes, load->text.bytes, written) == 0, "making a sheet: it is not that of the second generator");
    for (i = written; i < asked->room; i++) {
        expect(bytes[i] == UNTOUCHED_BYTE, "making a sheet: bytes behind it, or on a refusal, were written");
    }
    for (i = 0; i < asked->answer_length; i++) {
        expect(answer[i] == wanted_word(wanted, load, i), "making a sheet: its length or the next state is wrong, or another word was written");
    }
    expect(marks_stay(&bytes_area, asked->room, at_end) && marks_stay(&answer_area, answer_size, other_at_end),
           "making a sheet: memory beside the bytes or the answer was written");
    note(wanted, written);
}

/* ---- What is asked for */

static uint32_t draw_state(struct random *random)
{
    /* Where states and u end or change, and the u of the numbers 0 and 1,000. */
    static const uint32_t EDGES[] = {0, 1, UPPER - 1, UPPER, UINT32_MAX / 2, UINT32_MAX, 1000 * UPPER, 2000 * UPPER, 2001 * UPPER};
    uint32_t state = chance(random, 30) ? EDGES[below(random, COUNT_OF(EDGES))] : (uint32_t)next_random(random);
    /* The first draw leads to it, or it is the first. */
    return chance(random, 50) ? state - (uint32_t)STRIDE : state;
}

static size_t draw_room(struct random *random, size_t length)
{
    switch (below(random, 4)) {
    case 0:
        return 0;
    case 1:
        return (size_t)below(random, (int)length);
    case 2:
        return length + (size_t)below(random, 40);
    default:
        return TUZHELAR_HIRE_BYTES;
    }
}

static void ask_with_room(struct random *random, struct asked *asked, const struct load *load, size_t room)
{
    asked->room = room;
    asked->answer_length = (size_t)below(random, ANSWER_WORDS + 1);
    ask(random, asked, load);
}

/* A size outside 1 to 6, and beside it any other. Some are 1 to 6 in their lower bits. */
static void ask_wrong_size(struct random *random, struct asked asked, const struct load *load)
{
    static const size_t OUTSIDE[] = {0, 7, 8, 256 + 1, 65536 + 2, (size_t)UINT32_MAX + 1 + 3, SIZE_MAX - 1, SIZE_MAX};
    size_t *first = chance(random, 50) ? &asked.panels : &asked.triggers;
    if (chance(random, 20)) {
        asked.panels = asked.triggers = OUTSIDE[below(random, COUNT_OF(OUTSIDE))];
    }
    *first = OUTSIDE[below(random, COUNT_OF(OUTSIDE))];
    ask_with_room(random, &asked, load, draw_room(random, load->text.length));
}

/* "Every sheet so made is accepted and its order can be kept." */
static void check_accepted(const struct load *load)
{
    static struct text again;
    struct tables tables;
    expect(read_tables(load->text.bytes, load->text.length, &tables) == 0, "a made sheet is refused by the reader");
    write_tables(&tables, 0, &again);
    expect(again.length == load->text.length && memcmp(again.bytes, load->text.bytes, again.length) == 0,
           "a made sheet does not hold the tables that were drawn");
    expect(!circle_above_0(&tables), "a made sheet has no times that keep the order");
}

void check_hire(struct random *random, struct text *text)
{
    static struct load load;
    struct asked asked = {0, 0, 0, 0, 0};
    int panels = 1 + below(random, MOST), triggers = 1 + below(random, MOST), sheets, tries;
    asked.panels = (size_t)panels;
    asked.triggers = (size_t)triggers;
    load.next = draw_state(random);
    for (sheets = 0; sheets < SHEETS; sheets++) {
        asked.state = load.next;
        load.next = draw_tables(&load.tables, panels, triggers, asked.state);
        write_tables(&load.tables, 0, &load.text);
        *text = load.text;
        ask_with_room(random, &asked, &load, load.text.length);
        ask_with_room(random, &asked, &load, load.text.length - 1);
        for (tries = 0; tries < OTHER_ROOMS; tries++) {
            ask_with_room(random, &asked, &load, draw_room(random, load.text.length));
        }
        check_accepted(&load);
    }
    for (tries = 0; tries < WRONG_SIZES; tries++) {
        ask_wrong_size(random, asked, &load);
    }
}
