/* Four kinds of sheets: random bytes, good ones, good ones with faults of chosen kinds at chosen places, good ones with changes. */
#include "sheets.h"

#include <inttypes.h>
#include <stdio.h>
#include <stdlib.h>
#include <string.h>

#include "meaning.h"
#include "reader.h"

#define LINES 30     /* of a draft */
#define ITEMS 9      /* of a line */
#define ITEM_BYTES 24
#define COUNT_OF(array) ((int)(sizeof(array) / sizeof(array)[0]))

/* ---- Random numbers: splitmix64 */

uint64_t next_random(struct random *random)
{
    uint64_t z = random->state += UINT64_C(0x9e3779b97f4a7c15);
    z = (z ^ (z >> 30)) * UINT64_C(0xbf58476d1ce4e5b9);
    z = (z ^ (z >> 27)) * UINT64_C(0x94d049bb133111eb);
    return z ^ (z >> 31);
}

struct random random_for(uint64_t seed, uint64_t number)
{
    struct random random;
    random.state = seed;
    random.state = next_random(&random) ^ (number * UINT64_C(0xd6051ba535d79a2d));
    return random;
}

int below(struct random *random, int end)
{
    return (int)(next_random(random) % (uint64_t)end);
}

int64_t between(struct random *random, int64_t low, int64_t high)
{
    return low + (int64_t)(next_random(random) % (uint64_t)(high - low + 1));
}

int chance(struct random *random, int percent)
{
    return below(random, 100) < percent;
}

/* ---- Text; what is past its room is dropped */

static void add_bytes(struct text *text, const void *bytes, size_t length)
{
    size_t room = ROOM - text->length;
    length = length < room ? length : room;
    if (length > 0) {
        memcpy(text->bytes + text->length, bytes, length);
    }
    text->length += length;
}

static void add(struct text *text, const char *string)
{
    add_bytes(text, string, strlen(string));
}

static void add_repeated(struct text *text, char byte, int count)
{
    for (; count > 0; count--) {
        add_bytes(text, &byte, 1);
    }
}

/* Puts `count` bytes at a place, in the place of `gone` ones. */
static void splice(struct text *text, size_t at, size_t gone, const uint8_t *bytes, size_t count)
{
    struct text changed = {{0}, 0};
    add_bytes(&changed, text->bytes, at);
    add_bytes(&changed, bytes, count);
    add_bytes(&changed, text->bytes + at + gone, text->length - at - gone);
    *text = changed;
}

/* ---- Drafts: a sheet by lines and items, before it is written */

struct item_text {
    char text[ITEM_BYTES];
    int nines; /* digits 9 behind the text, for numerals of any length */
};

struct line {
    char key[ITEM_BYTES];
    struct item_text items[ITEMS];
    int count;
    char end[4];
    int end_length;
};

struct draft {
    struct line lines[LINES];
    int count;
    int m, n;
    int idle;            /* triggers that lose all entries, bit 0 for trigger 1; some get one back */
    int64_t times[MOST]; /* rules are drawn so that these keep them, or anyhow */
};

static void write_draft(const struct draft *draft, struct text *text)
{
    int i, j;
    text->length = 0;
    for (i = 0; i < draft->count; i++) {
        const struct line *line = &draft->lines[i];
        add(text, line->key);
        for (j = 0; j < line->count; j++) {
            add(text, j == 0 ? "" : ",");
            add(text, line->items[j].text);
            add_repeated(text, '9', line->items[j].nines);
        }
        add_bytes(text, line->end, (size_t)line->end_length);
    }
}

static struct line *add_line(struct draft *draft, const char *key)
{
    struct line *line = &draft->lines[draft->count++];
    memset(line, 0, sizeof *line);
    strcpy(line->key, key);
    strcpy(line->end, "\n");
    line->end_length = 1;
    return line;
}

static void set_item(struct line *line, int at, const char *text)
{
    strcpy(line->items[at].text, text);
    line->items[at].nines = 0;
}

static void set_number(struct line *line, int at, int64_t value)
{
    snprintf(line->items[at].text, ITEM_BYTES, "%" PRId64, value);
    line->items[at].nines = 0;
}

static void add_number(struct line *line, int64_t value)
{
    set_number(line, line->count++, value);
}

static void add_absent(struct line *line)
{
    set_item(line, line->count++, "-");
}

/* The number of an item; 0 for one that is beyond the limit or no number. */
static int64_t number_in(const struct item_text *item)
{
    int64_t value = strtoll(item->text, NULL, 10);
    return value < -LIMIT || value > LIMIT ? 0 : value;
}

static int is_absent(const struct item_text *item)
{
    return strcmp(item->text, "-") == 0;
}

static void all_absent_in(struct line *line)
{
    int j;
    for (j = 0; line != NULL && j < line->count; j++) {
        set_item(line, j, "-");
    }
}

/* The place of the i-th line of those with a key, or -1. */
static int place_of(const struct draft *draft, const char *key, int i)
{
    int at;
    for (at = 0; at < draft->count; at++) {
        if (strcmp(draft->lines[at].key, key) == 0 && i-- == 0) {
            return at;
        }
    }
    return -1;
}

/* The i-th line of those with a key, or none. */
static struct line *line_of(struct draft *draft, const char *key, int i)
{
    int at = place_of(draft, key, i);
    return at < 0 ? NULL : &draft->lines[at];
}

/* A new line before the one at a place, or at the end. There is room for one more. */
static struct line *insert_line(struct draft *draft, int at, const char *key)
{
    struct line line = *add_line(draft, key);
    memmove(&draft->lines[at + 1], &draft->lines[at], sizeof line * (size_t)(draft->count - at - 1));
    draft->lines[at] = line;
    return &draft->lines[at];
}

static void remove_line(struct draft *draft, int at)
{
    memmove(&draft->lines[at], &draft->lines[at + 1], sizeof draft->lines[0] * (size_t)(draft->count - at - 1));
    draft->count--;
}

static void repeat_line(struct draft *draft, int at)
{
    if (draft->count < LINES) {
        memmove(&draft->lines[at + 1], &draft->lines[at], sizeof draft->lines[0] * (size_t)(draft->count - at));
        draft->count++;
    }
}

static void exchange_lines(struct draft *draft, int a, int b)
{
    struct line line = draft->lines[a];
    draft->lines[a] = draft->lines[b];
    draft->lines[b] = line;
}

/* Removes the first line with a key, where there is one. */
static void remove_key(struct draft *draft, const char *key)
{
    int at = place_of(draft, key, 0);
    if (at >= 0) {
        remove_line(draft, at);
    }
}

static void add_rule_line(struct draft *draft, const char *value)
{
    struct line *line = insert_line(draft, 0, "rule=");
    set_item(line, line->count++, value);
}

/* ---- Good sheets: entries and rules */

/* How entries are drawn: within +-size, percents of absent ones, and whether nearly all are at the limits. */
struct manner {
    int64_t size;
    int no_lag, no_floor, no_after, no_land;
    int extreme;
};

static int64_t number(struct random *random, const struct manner *manner)
{
    static const int64_t EXTREMES[] = {LIMIT, -LIMIT, LIMIT - 1, 1 - LIMIT, 0};
    if (manner->extreme && chance(random, 80)) {
        return EXTREMES[below(random, COUNT_OF(EXTREMES))];
    }
    return between(random, -manner->size, manner->size);
}

/* A line of entries of which, where `one` is set, at least one is present. */
static void add_row(struct random *random, struct draft *draft, const char *key, const struct manner *manner, int items, int absent,
                    int one)
{
    struct line *line = add_line(draft, key);
    int present = one ? below(random, items) : -1, j;
    for (j = 0; j < items; j++) {
        if (j != present && chance(random, absent)) {
            add_absent(line);
        } else {
            add_number(line, number(random, manner));
        }
    }
}

/* Rules that the draft's times keep: an entry is at most times(i) - behind(j), and equal to it at times. A line for each trigger. */
static void add_kept(struct random *random, struct draft *draft, const char *key, const struct manner *manner, const int64_t *behind,
                     int items, int absent)
{
    int tight = below(random, 101), i, j;
    for (i = 0; i < draft->n; i++) {
        struct line *line = add_line(draft, key);
        for (j = 0; j < items; j++) {
            int64_t slack = chance(random, tight) ? 0 : between(random, 0, manner->size);
            int64_t entry = draft->times[i] - behind[j] - slack;
            if (chance(random, absent) || entry < -LIMIT) {
                add_absent(line);
            } else {
                add_number(line, entry < LIMIT ? entry : LIMIT);
            }
        }
    }
}

/* Rules of any entries: circles above 0 are likely. */
static void add_any(struct random *random, struct draft *draft, const char *key, const struct manner *manner, int items)
{
    int absent = 50 + below(random, 50), i;
    for (i = 0; i < draft->n; i++) {
        add_row(random, draft, key, manner, items, absent, 0);
    }
}

/* When a panel lands, with the draft's times. */
static int64_t landing(struct draft *draft, int panel)
{
    const struct line *lags = line_of(draft, "lag=", panel);
    int64_t largest = NONE;
    int j;
    for (j = 0; j < draft->n; j++) {
        if (!is_absent(&lags->items[j])) {
            int64_t time = number_in(&lags->items[j]) + draft->times[j];
            largest = time > largest ? time : largest;
        }
    }
    return largest;
}

static void add_land(struct random *random, struct draft *draft, const struct manner *manner)
{
    int64_t landings[MOST];
    int i;
    for (i = 0; i < draft->m; i++) {
        landings[i] = landing(draft, i);
    }
    if (chance(random, 85)) {
        add_kept(random, draft, "land=", manner, landings, draft->m, manner->no_land);
    } else {
        add_any(random, draft, "land=", manner, draft->m);
    }
}

/* Lags, floors and due marks that nearly tie, from marks of panels and triggers: many entries are kept, and many selections walked. */
static void add_tied(struct random *random, struct draft *draft, const struct manner *manner)
{
    int64_t u[MOST], v[MOST], third = manner->size / 3, noise = between(random, 0, chance(random, 50) ? 3 : third);
    int present, i, j;
    struct line *line;
    for (i = 0; i < draft->m; i++) {
        u[i] = between(random, -third, third);
    }
    for (j = 0; j < draft->n; j++) {
        v[j] = between(random, -third, third);
    }
    for (i = 0; i < draft->m; i++) {
        line = add_line(draft, "lag=");
        present = below(random, draft->n);
        for (j = 0; j < draft->n; j++) {
            if (j != present && chance(random, manner->no_lag)) {
                add_absent(line);
            } else {
                add_number(line, u[i] - v[j] + between(random, 0, noise));
            }
        }
    }
    line = add_line(draft, "floor=");
    present = below(random, draft->m);
    for (i = 0; i < draft->m; i++) {
        if (i != present && chance(random, manner->no_floor)) {
            add_absent(line);
        } else {
            add_number(line, u[i]);
        }
    }
    line = add_line(draft, "due=");
    for (j = 0; j < draft->n; j++) {
        add_number(line, v[j]);
    }
}

/* Panels without a floor that one trigger alone reaches, so that lines need not: only panels with a floor are reached by all. */
static void thin_lags(struct random *random, struct draft *draft)
{
    const struct line *floors = line_of(draft, "floor=", 0);
    int i, j, only;
    for (i = 0; i < draft->m; i++) {
        struct line *lags = line_of(draft, "lag=", i);
        for (only = below(random, draft->n); is_absent(&lags->items[only]);) {
            only = below(random, draft->n);
        }
        for (j = 0; is_absent(&floors->items[i]) && j < draft->n; j++) {
            if (j != only) {
                set_item(lags, j, "-");
            }
        }
    }
}

/* ---- Idle triggers: with no entry left they are spare, with one they are not */

static int is_one_of(int byte, int trigger)
{
    return byte >> trigger & 1;
}

/* One trigger at any place, some, or all; but for one that is left in use. */
static int draw_idle(struct random *random, int n)
{
    int all = (1 << n) - 1, in_use = 1 << below(random, n);
    switch (below(random, 3)) {
    case 0:
        return 1 << below(random, n) & ~in_use;
    case 1:
        return below(random, all + 1) & ~in_use;
    default:
        return all & ~in_use;
    }
}

/* Idle triggers lose their lags. A panel that they alone reached is reached by the first of the others. */
static void take_lags(struct draft *draft, int idle)
{
    int in_use = 0, i, j;
    while (is_one_of(idle, in_use)) {
        in_use++;
    }
    for (i = 0; i < draft->m; i++) {
        struct line *lags = line_of(draft, "lag=", i);
        for (j = 0; j < draft->n; j++) {
            if (is_one_of(idle, j) && !is_absent(&lags->items[j])) {
                lags->items[in_use] = is_absent(&lags->items[in_use]) ? lags->items[j] : lags->items[in_use];
                set_item(lags, j, "-");
            }
        }
    }
}

/* Idle triggers lose the rules that hold them or others behind them. A row of minus signs in the land lines is left. */
static void take_rules(struct draft *draft, int idle)
{
    int i, j;
    for (j = 0; j < draft->n; j++) {
        if (is_one_of(idle, j)) {
            all_absent_in(line_of(draft, "after=", j));
            all_absent_in(line_of(draft, "land=", j));
            for (i = 0; i < draft->n; i++) {
                set_item(line_of(draft, "after=", i), j, "-");
            }
        }
    }
}

/* Some of the due marks that are to count for nothing are far off. */
static void move_due(struct random *random, struct draft *draft)
{
    static const int64_t FAR_OFF[] = {LIMIT, -LIMIT, 1000, -1000};
    int j;
    for (j = 0; j < draft->n; j++) {
        if (is_one_of(draft->idle, j) && chance(random, 50)) {
            set_number(line_of(draft, "due=", 0), j, FAR_OFF[below(random, COUNT_OF(FAR_OFF))]);
        }
    }
}

/* An entry that the draft's times keep, where it is within the limits. */
static void set_entry(struct line *line, int at, int64_t entry)
{
    if (entry >= -LIMIT && entry <= LIMIT) {
        set_number(line, at, entry);
    }
}

/* Land lines without a rule, where there are none. */
static void add_no_land(struct draft *draft)
{
    while (line_of(draft, "land=", draft->n - 1) == NULL) {
        struct line *line = add_line(draft, "land=");
        while (line->count < draft->m) {
            add_absent(line);
        }
    }
}

/* A rule for a trigger that has none: an after entry on the diagonal, in its row or its column, or a land entry. */
static void give_rule(struct random *random, struct draft *draft, int trigger)
{
    int other = below(random, draft->n), panel = below(random, draft->m);
    int64_t slack = below(random, 3), behind = draft->times[trigger] - draft->times[other];
    switch (below(random, 4)) {
    case 0:
        set_entry(line_of(draft, "after=", trigger), trigger, chance(random, 70) ? 0 : -slack);
        break;
    case 1:
        set_entry(line_of(draft, "after=", trigger), other, behind - slack);
        break;
    case 2:
        set_entry(line_of(draft, "after=", other), trigger, -behind - slack);
        break;
    default:
        add_no_land(draft);
        set_entry(line_of(draft, "land=", trigger), panel, draft->times[trigger] - landing(draft, panel) - slack);
    }
}

/* A lag for a trigger that has none, with which the panel lands as before. */
static void give_lag(struct random *random, struct draft *draft, int trigger)
{
    int panel = below(random, draft->m);
    set_entry(line_of(draft, "lag=", panel), trigger, landing(draft, panel) - draft->times[trigger] - below(random, 3));
}

/* Some idle triggers get an entry, so that they are idle no more: nor is another trigger that such a rule names. */
static void use_some(struct random *random, struct draft *draft)
{
    int j;
    for (j = 0; j < draft->n; j++) {
        if (is_one_of(draft->idle, j) && chance(random, 20)) {
            if (chance(random, 80)) {
                give_rule(random, draft, j);
            } else {
                give_lag(random, draft, j);
            }
        }
    }
}

/* ---- Rule 2: there are no marks, and each trigger that is not spare needs a lag */

/* Triggers that are not spare and reach no panel get a lag, all of them or some. */
static void give_lags(struct random *random, struct draft *draft)
{
    static struct text text;
    struct tables tables;
    int all = chance(random, 90), j;
    write_draft(draft, &text);
    read_tables(text.bytes, text.length, &tables);
    for (j = 0; j < draft->n; j++) {
        if (is_lagless(&tables, j) && !is_spare(&tables, j) && (all || chance(random, 50))) {
            give_lag(random, draft, j);
        }
    }
}

/* A trigger that reaches no panel, with the rules that it had or with one alone; on some sheets with one that no times keep. */
static void lose_lags(struct random *random, struct draft *draft)
{
    int trigger = below(random, draft->n), lagless = 1 << trigger;
    if (draft->n > 1) {
        take_lags(draft, lagless);
    }
    if (chance(random, 70)) {
        take_rules(draft, lagless);
    }
    give_rule(random, draft, trigger);
    if (chance(random, 30)) {
        set_number(line_of(draft, "after=", trigger), trigger, between(random, 1, 3));
    }
}

static void use_lags(struct random *random, struct draft *draft)
{
    give_lags(random, draft);
    if (chance(random, 18)) {
        lose_lags(random, draft);
    }
}

/* The draft, which has marks until now, follows rule 2. In some a panel has no lag, and often a trigger that reached it alone. */
static void leave_marks(struct random *random, struct draft *draft)
{
    remove_key(draft, "floor=");
    remove_key(draft, "due=");
    add_rule_line(draft, "2");
    if (chance(random, 8)) {
        all_absent_in(line_of(draft, "lag=", below(random, draft->m)));
    }
}

/* ---- Last moments */

/* A last moment by one of several ways: near when the panel lands with the draft's times, the same as others, at the limits, or anyhow. */
static int64_t draw_moment(struct random *random, struct draft *draft, const struct manner *manner, int way, int64_t downbeat, int panel)
{
    static const int64_t EXTREMES[] = {LIMIT, -LIMIT, LIMIT - 1, 1 - LIMIT};
    int64_t reach = chance(random, 50) ? 3 : manner->size;
    switch (way) {
    case 0:
        return downbeat;
    case 1:
        return EXTREMES[below(random, COUNT_OF(EXTREMES))];
    case 2:
        return number(random, manner);
    default:
        return landing(draft, panel) + between(random, -reach, reach);
    }
}

/* Panels without a floor, which a line need not reach, often have the earlier moments. */
static void add_last(struct random *random, struct draft *draft, const struct manner *manner)
{
    const struct line *floors = line_of(draft, "floor=", 0);
    struct line *line = add_line(draft, "last=");
    int way = below(random, 7), earlier = chance(random, 50), i;
    int64_t downbeat = number(random, manner);
    for (i = 0; i < draft->m; i++) {
        int64_t moment = draw_moment(random, draft, manner, way, downbeat, i);
        if (earlier && is_absent(&floors->items[i])) {
            moment -= between(random, 0, 2 * manner->size);
        }
        add_number(line, moment < -LIMIT ? -LIMIT : moment > LIMIT ? LIMIT : moment);
    }
}

/* ---- Good sheets, whole */

static struct manner draw_manner(struct random *random)
{
    static const int64_t SIZES[] = {1, 1, 2, 3, 9, 400, 2000, LIMIT};
    static const int ABSENT[] = {0, 0, 20, 50, 80};
    struct manner manner;
    manner.size = SIZES[below(random, COUNT_OF(SIZES))];
    manner.extreme = manner.size == LIMIT && chance(random, 50);
    manner.no_lag = ABSENT[below(random, COUNT_OF(ABSENT))];
    manner.no_floor = ABSENT[below(random, COUNT_OF(ABSENT))];
    manner.no_after = chance(random, 40) ? 100 : 20 + below(random, 81);
    manner.no_land = chance(random, 20) ? 100 : 20 + below(random, 81);
    return manner;
}

/* The lines up to the after lines. */
static void add_front(struct random *random, struct draft *draft, const struct manner *manner)
{
    int i;
    add_number(add_line(draft, "panels="), draft->m);
    add_number(add_line(draft, "triggers="), draft->n);
    if (chance(random, 25)) {
        add_tied(random, draft, manner);
    } else {
        for (i = 0; i < draft->m; i++) {
            add_row(random, draft, "lag=", manner, draft->n, manner->no_lag, 1);
        }
        add_row(random, draft, "floor=", manner, draft->m, manner->no_floor, 1);
        add_row(random, draft, "due=", manner, draft->n, 0, 0);
    }
    if (chance(random, 20)) {
        thin_lags(random, draft);
    }
    take_lags(draft, draft->idle);
    move_due(random, draft);
}

static void add_rules(struct random *random, struct draft *draft, const struct manner *manner)
{
    if (chance(random, 90)) {
        add_kept(random, draft, "after=", manner, draft->times, draft->n, manner->no_after);
    } else {
        add_any(random, draft, "after=", manner, draft->n);
    }
    if (chance(random, 50)) {
        add_land(random, draft, manner);
    }
    take_rules(draft, draft->idle);
    use_some(random, draft);
}

static void make_draft(struct random *random, struct draft *draft)
{
    struct manner manner = draw_manner(random);
    int spread = chance(random, 35), i;
    memset(draft, 0, sizeof *draft);
    draft->m = 1 + below(random, MOST);
    draft->n = 1 + below(random, MOST);
    draft->idle = chance(random, 35) ? draw_idle(random, draft->n) : 0;
    for (i = 0; i < draft->n; i++) {
        draft->times[i] = between(random, -manner.size / 2, manner.size / 2);
    }
    add_front(random, draft, &manner);
    add_rules(random, draft, &manner);
    if (spread) {
        use_lags(random, draft);
    }
    if (chance(random, 35)) {
        add_last(random, draft, &manner);
    }
    if (spread) {
        leave_marks(random, draft);
    }
}

/* ---- Faults of chosen kinds */

static const char *const WRONG_NUMERALS[] = {"",   "-0",  "00", "05",  "-05", "+5",  " 5", "5 ",     "--",  "-5-",
                                             "5-", "0x1", "x",  "1.0", "1e3", "0-",  "01", "5\r",    "\t5", "- 5",
                                             "--5", "000", "1_0", "\xe2\x88\x92\x35", "5;5", "=", "0,", ",0"};
static const char *const BEYOND[] = {"100001",     "-100001",     "1000000",    "-999999",
                                     "2147483648", "-2147483649", "4294967301", "18446744073709551621", "-18446744073709551615"};
static const char *const AT_LIMIT[] = {"100000", "-100000", "99999", "-99999"};
static const char *const WRONG_SIZES[] = {"0", "7", "-1", "10", "-6", "66", "100001", "4294967298", "18446744073709551618"};
static const char *const KEYS[] = {"rule=", "panels=", "triggers=", "lag=", "floor=", "due=", "after=", "land=", "last="};
static const char *const WRONG_RULES[] = {"1",  "3",  "0",   "-2",  "02", "+2",  "22",  "-",          "",
                                          " 2", "2 ", "2\r", "2.0", "2,", "2,2", "2,-", "4294967298", "18446744073709551618"};
static const struct {
    const char *bytes;
    int length;
} ENDS[] = {{"\r\n", 2}, {"", 0}, {"\n\n", 2}, {" \n", 2}, {",\n", 2}, {"\0\n", 2}, {"\r", 1}, {"\n ", 2}, {"\n\r", 2}};

static struct line *any_line(struct random *random, struct draft *draft)
{
    return &draft->lines[below(random, draft->count)];
}

static void set_any(struct random *random, struct line *line, const char *text)
{
    if (line != NULL && line->count > 0) {
        set_item(line, below(random, line->count), text);
    }
}

/* A due mark that is absent or beyond the limit, that of a spare trigger too, which is read as any other. */
static void wrong_due(struct random *random, struct draft *draft)
{
    struct line *due = line_of(draft, "due=", 0);
    int j = below(random, draft->n);
    while (draft->idle != 0 && chance(random, 90) && !is_one_of(draft->idle, j)) {
        j = below(random, draft->n);
    }
    if (due != NULL) {
        set_item(due, j, chance(random, 70) ? "-" : BEYOND[below(random, COUNT_OF(BEYOND))]);
    }
}

static void wrong_key(struct random *random, struct line *line)
{
    size_t length = strlen(line->key), at;
    switch (below(random, 5)) {
    case 0:
        strcpy(line->key, KEYS[below(random, COUNT_OF(KEYS))]);
        break;
    case 1:
        strcat(line->key, "=");
        break;
    case 2:
        line->key[0] = (char)(line->key[0] == '\0' ? ' ' : line->key[0] ^ 0x20);
        break;
    case 3:
        if (length > 0) {
            line->key[length - 1] = '\0';
        }
        break;
    default:
        if (length > 0) {
            at = (size_t)below(random, (int)length);
            line->key[at] = (char)between(random, 1, 127);
        }
    }
}

/* A circle above 0 through a trigger and a panel that it reaches and waits for. */
static void circle_by_landing(struct random *random, struct draft *draft)
{
    int trigger = below(random, draft->n), panel = below(random, draft->m);
    struct line *row = line_of(draft, "land=", trigger), *lags = line_of(draft, "lag=", panel);
    if (row != NULL && lags != NULL && panel < row->count && trigger < lags->count && !is_absent(&lags->items[trigger])) {
        set_number(row, panel, between(random, 1, 3) - number_in(&lags->items[trigger]));
    }
}

/* A circle above 0 through one trigger or two. */
static void circle(struct random *random, struct draft *draft)
{
    int i = below(random, draft->n), j = below(random, draft->n);
    int64_t there = between(random, -50, 50);
    struct line *row = line_of(draft, "after=", i), *back = line_of(draft, "after=", j);
    if (row == NULL || back == NULL || j >= row->count || i >= back->count) {
        return;
    }
    if (i == j) {
        set_number(row, i, between(random, 1, 3));
    } else {
        set_number(row, j, there);
        set_number(back, i, 1 - there);
    }
}

/* Another number of items: often that of an after line. */
static void wrong_count(struct random *random, struct line *line, int triggers)
{
    int count = chance(random, 70) ? triggers : below(random, ITEMS);
    while (line->count < count) {
        add_number(line, between(random, -9, 9));
    }
    line->count = count;
}

/* A fault of the land lines, or something beside one. A sheet that has none gets one, which is too few where there are more triggers. */
static void add_land_fault(struct random *random, struct draft *draft)
{
    static const struct manner small = {9, 0, 0, 0, 0, 0};
    int at = place_of(draft, "land=", below(random, draft->n)), last_after = place_of(draft, "after=", draft->n - 1);
    struct line *line;
    if (at < 0) {
        if (draft->count < LINES) {
            add_row(random, draft, "land=", &small, draft->m, 50, 0);
        }
        return;
    }
    line = &draft->lines[at];
    switch (below(random, 8)) {
    case 0:
        remove_line(draft, at);
        break;
    case 1:
        repeat_line(draft, at);
        break;
    case 2:
        wrong_count(random, line, draft->n);
        break;
    case 3:
        wrong_key(random, line);
        break;
    case 4:
        exchange_lines(draft, at, last_after < 0 ? at : last_after);
        break;
    case 5:
        set_any(random, line, BEYOND[below(random, COUNT_OF(BEYOND))]);
        break;
    case 6:
        set_any(random, line, AT_LIMIT[below(random, COUNT_OF(AT_LIMIT))]);
        break;
    default:
        circle_by_landing(random, draft);
    }
}

/* A last line of small moments, behind all others. */
static void add_small_last(struct random *random, struct draft *draft)
{
    static const struct manner small = {9, 0, 0, 0, 0, 0};
    if (draft->count < LINES) {
        add_row(random, draft, "last=", &small, draft->m, 0, 0);
    }
}

/* A moment that is absent, and often one beside it that is beyond the limit, or wrong. */
static void absent_moment(struct random *random, struct line *line)
{
    int at = line->count > 0 ? below(random, line->count) : 0, beside = line->count > 1 ? (at + 1) % line->count : at;
    if (chance(random, 50)) {
        set_item(line, beside, BEYOND[below(random, COUNT_OF(BEYOND))]);
    } else if (chance(random, 30)) {
        set_item(line, beside, WRONG_NUMERALS[below(random, COUNT_OF(WRONG_NUMERALS))]);
    }
    set_item(line, at, "-");
}

/* A fault of the last line, which stands at a place, or something beside one. */
static void wrong_last(struct random *random, struct draft *draft, int at)
{
    int land = place_of(draft, "land=", below(random, draft->n));
    struct line *line = &draft->lines[at];
    switch (below(random, 11)) {
    case 0:
        repeat_line(draft, at);
        break;
    case 1:
        wrong_count(random, line, draft->n);
        break;
    case 2:
        wrong_key(random, line);
        break;
    case 3:
    case 4:
        /* Before a land line where there is one. */
        exchange_lines(draft, at, land < 0 ? below(random, draft->count) : land);
        break;
    case 5:
        add_small_last(random, draft);
        break;
    case 6:
        set_any(random, line, BEYOND[below(random, COUNT_OF(BEYOND))]);
        break;
    case 7:
        set_any(random, line, AT_LIMIT[below(random, COUNT_OF(AT_LIMIT))]);
        break;
    case 8:
        line->end_length = 0;
        break;
    default:
        absent_moment(random, line);
    }
}

/* A sheet that has no last line gets one, and often no fault of it. Some get what is refused as 6 or 7 only where the last line is good. */
static void add_last_fault(struct random *random, struct draft *draft)
{
    int had = place_of(draft, "last=", 0) >= 0, at;
    if (!had) {
        add_small_last(random, draft);
    }
    if (chance(random, 15)) {
        all_absent_in(line_of(draft, chance(random, 50) ? "lag=" : "floor=", 0));
    }
    at = place_of(draft, "last=", 0);
    if (at >= 0 && (had || chance(random, 70))) {
        wrong_last(random, draft, at);
    }
}

/* A line of marks, where there is none: before the after lines or, where there are no more, at the end. */
static void add_marks_line(struct random *random, struct draft *draft, const char *key, int items)
{
    int at = place_of(draft, "after=", 0);
    struct line *line;
    if (draft->count < LINES) {
        line = insert_line(draft, at < 0 ? draft->count : at, key);
        while (line->count < items) {
            add_number(line, between(random, -9, 9));
        }
    }
}

/* A fault of a sheet with marks that would be none under rule 2, or the other way round. */
static void wrong_marks(struct random *random, struct draft *draft)
{
    int floor = chance(random, 60), due = !floor || chance(random, 60);
    if (place_of(draft, "rule=", 0) >= 0) {
        if (floor) {
            add_marks_line(random, draft, "floor=", draft->m);
        }
        if (due) {
            add_marks_line(random, draft, "due=", draft->n);
        }
        return;
    }
    if (floor) {
        remove_key(draft, "floor=");
    }
    if (due) {
        remove_key(draft, "due=");
    }
}

/* The rule line behind one of the others, often between the sizes. */
static void move_rule(struct random *random, struct draft *draft, int at)
{
    struct line line = draft->lines[at];
    remove_line(draft, at);
    *insert_line(draft, chance(random, 40) ? 1 : 1 + below(random, draft->count), "rule=") = line;
}

/* A fault of the rule line, or of what follows from it. A sheet that has none gets one, with any value. */
static void add_rule_fault(struct random *random, struct draft *draft)
{
    const char *wrong = WRONG_RULES[below(random, COUNT_OF(WRONG_RULES))];
    int at = place_of(draft, "rule=", 0);
    if (chance(random, 40)) {
        wrong_marks(random, draft);
        return;
    }
    if (at < 0) {
        if (draft->count < LINES) {
            add_rule_line(draft, chance(random, 50) ? "2" : wrong);
        }
        return;
    }
    switch (below(random, 5)) {
    case 0:
        remove_line(draft, at);
        break;
    case 1:
        repeat_line(draft, at);
        break;
    case 2:
        draft->lines[at].end_length = 0;
        break;
    case 3:
        move_rule(random, draft, at);
        break;
    default:
        set_item(&draft->lines[at], 0, wrong);
        draft->lines[at].count = 1;
    }
}

/* One fault, or something beside one, of a kind and at a place that are drawn. */
static void add_fault(struct random *random, struct draft *draft)
{
    struct line *line = any_line(random, draft);
    int at = below(random, draft->count), end;
    if (draft->idle != 0 && line_of(draft, "due=", 0) != NULL && chance(random, 20)) {
        wrong_due(random, draft);
        return;
    }
    switch (below(random, 33)) {
    case 0:
        wrong_key(random, line);
        break;
    case 1:
        if (draft->count > 1) {
            remove_line(draft, at);
        }
        break;
    case 2:
        repeat_line(draft, at);
        break;
    case 3:
        exchange_lines(draft, at, below(random, draft->count));
        break;
    case 4:
        line->count -= line->count > 0;
        break;
    case 5:
        if (line->count < ITEMS) {
            add_number(line, between(random, -9, 9));
        }
        break;
    case 6:
        set_any(random, line, WRONG_NUMERALS[below(random, COUNT_OF(WRONG_NUMERALS))]);
        break;
    case 7:
        end = below(random, COUNT_OF(ENDS));
        memcpy(line->end, ENDS[end].bytes, (size_t)ENDS[end].length);
        line->end_length = ENDS[end].length;
        break;
    case 8:
        draft->lines[draft->count - 1].end_length = 0;
        break;
    case 9:
        set_any(random, line_of(draft, at % 2 == 0 ? "panels=" : "triggers=", 0), WRONG_SIZES[below(random, COUNT_OF(WRONG_SIZES))]);
        break;
    case 10:
        set_any(random, line, BEYOND[below(random, COUNT_OF(BEYOND))]);
        break;
    case 11:
        if (line->count > 0) {
            int item = below(random, line->count);
            set_item(line, item, chance(random, 50) ? "9" : "-9");
            line->items[item].nines = chance(random, 80) ? below(random, 30) : 400 + below(random, 1600);
        }
        break;
    case 12:
        set_any(random, line, AT_LIMIT[below(random, COUNT_OF(AT_LIMIT))]);
        break;
    case 13:
        set_any(random, line, "-");
        break;
    case 14:
        wrong_due(random, draft);
        break;
    case 15:
        all_absent_in(line_of(draft, "lag=", below(random, draft->m)));
        break;
    case 16:
        all_absent_in(line_of(draft, "floor=", 0));
        break;
    case 17:
        circle(random, draft);
        break;
    case 18:
    case 19:
    case 20:
    case 21:
        add_land_fault(random, draft);
        break;
    case 22:
    case 23:
    case 24:
    case 25:
    case 26:
        add_last_fault(random, draft);
        break;
    default:
        add_rule_fault(random, draft);
    }
}

/* ---- Changes of bytes and lines, wherever they fall */

static const char LETTERS[] = "panelstrigfoduw=,-0123456789\n";

static uint8_t any_byte(struct random *random)
{
    return chance(random, 70) ? (uint8_t)LETTERS[below(random, (int)sizeof LETTERS - 1)] : (uint8_t)next_random(random);
}

/* The line around a place: where it starts and how long it is, with its LF. */
static size_t line_around(const struct text *text, size_t at, size_t *start)
{
    size_t end = at;
    *start = at;
    while (*start > 0 && text->bytes[*start - 1] != '\n') {
        (*start)--;
    }
    while (end < text->length && text->bytes[end] != '\n') {
        end++;
    }
    return end + (end < text->length) - *start;
}

static void change(struct random *random, struct text *text)
{
    uint8_t byte = any_byte(random), copy[ROOM];
    size_t at, start, length;
    if (text->length == 0) {
        add_bytes(text, &byte, 1);
        return;
    }
    at = (size_t)below(random, (int)text->length);
    switch (below(random, 9)) {
    case 0:
        text->bytes[at] = (uint8_t)(text->bytes[at] ^ (1 << below(random, 8)));
        break;
    case 1:
        text->bytes[at] = byte;
        break;
    case 2:
        splice(text, at, 0, &byte, 1);
        break;
    case 3:
        splice(text, at, 1, NULL, 0);
        break;
    case 4:
        byte = text->bytes[at];
        splice(text, at, 0, &byte, 1);
        break;
    case 5:
        length = line_around(text, at, &start);
        memcpy(copy, text->bytes + start, length);
        splice(text, start, 0, copy, length);
        break;
    case 6:
        length = line_around(text, at, &start);
        splice(text, start, length, NULL, 0);
        break;
    case 7:
        text->length = at;
        break;
    default:
        /* Behind the end: often up to the longest sheet, or past it. */
        if (chance(random, 60)) {
            byte = chance(random, 70) ? '\n' : byte;
            add_repeated(text, (char)byte, LONGEST - 2 + below(random, 5) - (int)text->length);
        } else {
            add_bytes(text, &byte, 1);
        }
    }
}

/*
 * What random bytes may stand behind: the key of the rule, the sizes, a good sheet under either rule, and one that has begun with its land lines
 * or with its last line.
 */
static const char *const FRONTS[] = {"panels=1\ntriggers=1\n", "panels=1\ntriggers=1\nlag=5\nfloor=0\ndue=0\nafter=-\n",
                                     "panels=1\ntriggers=1\nlag=5\nfloor=0\ndue=0\nafter=-\nland=",
                                     "panels=1\ntriggers=1\nlag=5\nfloor=0\ndue=0\nafter=-\nlast=",
                                     "panels=1\ntriggers=1\nlag=5\nfloor=0\ndue=0\nafter=-\nland=-\nlast=",
                                     "rule=", "rule=2\n", "rule=2\npanels=1\ntriggers=1\nlag=5\n",
                                     "rule=2\npanels=1\ntriggers=1\nlag=5\nafter=-\n"};

static void random_bytes(struct random *random, struct text *text)
{
    int any = chance(random, 50);
    size_t length = (size_t)(chance(random, 80) ? below(random, 80) : chance(random, 50) ? below(random, ROOM) : LONGEST - 3 + below(random, 6));
    text->length = 0;
    if (chance(random, 50)) {
        add(text, FRONTS[below(random, COUNT_OF(FRONTS))]);
    }
    while (text->length < length) {
        uint8_t byte = any ? (uint8_t)next_random(random) : any_byte(random);
        add_bytes(text, &byte, 1);
    }
}

void make_sheet(struct random *random, struct text *text)
{
    int kind = below(random, 100), faults;
    struct draft draft;
    if (kind < 10) {
        random_bytes(random, text);
        return;
    }
    make_draft(random, &draft);
    /* 10 to 39 are good sheets, 40 to 69 have faults, the others changes. */
    if (kind >= 40 && kind < 70) {
        for (faults = 1 + below(random, 2); faults > 0; faults--) {
            add_fault(random, &draft);
        }
    }
    write_draft(&draft, text);
    if (kind >= 70) {
        for (faults = 1 + below(random, 3); faults > 0; faults--) {
            change(random, text);
        }
    }
}
