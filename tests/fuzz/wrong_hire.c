/* Wrong generators of sheets. */
#include "wrong.h"

#include <string.h>

#include "writer.h"

#define STRIDE UINT32_C(2654435769)

uint32_t __wrap_tuzhelar_hire(size_t panels, size_t triggers, uint32_t state, uint8_t *bytes, size_t bytes_length, int64_t *answer,
                              size_t answer_length);

/* ---- A generator of its own, for faults of what is made */

/* Whether the fault that is named is one of these. */
static int is_of_sheets(void)
{
    int number;
    for (number = 120; number <= 130; number++) {
        if (fault(number)) {
            return 1;
        }
    }
    return 0;
}

static uint32_t draw(uint32_t *state)
{
    uint32_t before = *state;
    *state += STRIDE;
    if (fault(120) && *state < before) {
        *state = UINT32_MAX; /* a state that saturates */
    }
    return fault(121) ? *state & 0xffff : *state >> 16; /* the lower 16 bits */
}

/* An item that may be absent, or never is. */
static int64_t draw_item(uint32_t *state, int never)
{
    uint32_t u = draw(state);
    if (!never && u % 7 == 0) {
        return NONE;
    }
    return (int64_t)(u % (fault(122) ? 2000 : 2001)) - 1000;
}

/* An item of an after line, which below the diagonal may be absent and else always is. */
static int64_t draw_after(uint32_t *state, int i, int j)
{
    if (fault(123) ? j > i : fault(124) ? j <= i : j < i) { /* on the other side of the diagonal; on the diagonal too */
        return draw_item(state, 0);
    }
    if (!fault(125)) { /* a draw saved */
        draw(state);
    }
    return NONE;
}

static void draw_lags(struct tables *tables, uint32_t *state)
{
    int turned = fault(126), outer = turned ? tables->triggers : tables->panels, inner = turned ? tables->panels : tables->triggers, i, j;
    for (i = 0; i < outer; i++) {
        for (j = 0; j < inner; j++) {
            int panel = turned ? j : i, trigger = turned ? i : j; /* trigger by trigger */
            tables->lag[panel][trigger] = draw_item(state, trigger == 0 && !fault(127)); /* the first lag absent */
        }
    }
}

/* The tables of a sheet. Returns the next state. */
static uint32_t draw_wrong(struct tables *tables, uint32_t state)
{
    int i, j;
    draw_lags(tables, &state);
    for (i = 0; i < tables->panels; i++) {
        tables->floor[i] = draw_item(&state, i == 0 && !fault(128)); /* the first floor absent */
    }
    for (j = 0; j < tables->triggers; j++) {
        tables->due[j] = draw_item(&state, !fault(129)); /* a due mark absent */
    }
    for (i = 0; i < tables->triggers; i++) {
        for (j = 0; j < tables->triggers; j++) {
            tables->after[i][j] = draw_after(&state, i, j);
        }
    }
    return state;
}

/* As the function does with right sizes, but for what is made. */
static uint32_t make_wrong(size_t panels, size_t triggers, uint32_t state, uint8_t *bytes, size_t bytes_length, int64_t *answer,
                           size_t answer_length)
{
    struct tables tables;
    struct text text;
    clear_tables(&tables);
    tables.panels = (int)panels;
    tables.triggers = (int)triggers;
    state = draw_wrong(&tables, state);
    write_tables(&tables, fault(130), &text); /* land lines, without a rule */
    if (text.length > bytes_length) {
        return TUZHELAR_SHEET_SPACE;
    }
    memcpy(bytes, text.bytes, text.length);
    if (answer_length > 0) {
        answer[0] = (int64_t)text.length;
    }
    if (answer_length > 1) {
        answer[1] = state;
    }
    return TUZHELAR_DONE;
}

/* ---- Faults of sizes, room and answer */

static int is_size(size_t size)
{
    return size >= 1 && size <= TUZHELAR_MOST;
}

/* The nearest size that is right. */
static size_t brought_near(size_t size)
{
    return size < 1 ? 1 : size > TUZHELAR_MOST ? TUZHELAR_MOST : size;
}

/* What is written though it should not be, or in the place of what should. `end` is where the sheet ends. */
static void write_more(uint32_t number, uint32_t state, uint8_t *bytes, size_t bytes_length, size_t end, int64_t *answer,
                       size_t answer_length)
{
    if (fault(133) && number == TUZHELAR_SHEET_SPACE && answer_length > 1) {
        answer[1] = state; /* a state returned with 13 */
    }
    if (fault(134) && number == TUZHELAR_SHEET_SPACE && bytes_length > 0) {
        bytes[0] = 'p'; /* 13 writes */
    }
    if (fault(135) && number == TUZHELAR_DONE && end < bytes_length) {
        bytes[end] = 0; /* a byte behind the sheet */
    }
    if (fault(136) && number == TUZHELAR_DONE && answer_length > TUZHELAR_HIRE_WORDS) {
        answer[TUZHELAR_HIRE_WORDS] = 0; /* a word too many */
    }
    if (fault(137) && number == TUZHELAR_DONE && answer_length > 1) {
        answer[1] = state; /* the state that was given */
    }
}

uint32_t __wrap_tuzhelar_hire(size_t panels, size_t triggers, uint32_t state, uint8_t *bytes, size_t bytes_length, int64_t *answer,
                              size_t answer_length)
{
    uint8_t sheet[TUZHELAR_HIRE_BYTES];
    int64_t made[TUZHELAR_HIRE_WORDS] = {0, 0};
    uint32_t number;
    if (is_of_sheets() && is_size(panels) && is_size(triggers)) {
        return make_wrong(panels, triggers, state, bytes, bytes_length, answer, answer_length);
    }
    if (fault(131)) {
        panels = brought_near(panels); /* a size outside 1 to 6 is not refused */
        triggers = brought_near(triggers);
    }
    number = __real_tuzhelar_hire(panels, triggers, state, bytes, bytes_length, answer, answer_length);
    __real_tuzhelar_hire(panels, triggers, state, sheet, sizeof sheet, made, TUZHELAR_HIRE_WORDS);
    write_more(number, state, bytes, bytes_length, (size_t)made[0], answer, answer_length);
    if (fault(132) && number == TUZHELAR_HIRE_SIZE && bytes_length < TUZHELAR_HIRE_BYTES) {
        return TUZHELAR_SHEET_SPACE; /* 13 before 12 */
    }
    if (fault(138) && number == TUZHELAR_DONE && bytes_length == (size_t)made[0]) {
        return TUZHELAR_SHEET_SPACE; /* full too early */
    }
    return number;
}
