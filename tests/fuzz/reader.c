/*
 * Document 01, "The sheet" and "Reading", and document 02, No. 2, 5 and 7. A line is taken whole, up to its LF, split at its commas, and then
 * asked for each kind of fault in turn: "in one line 2 before 3 before 4 before 5".
 */
#include "reader.h"

#include <string.h>

#include "meaning.h"

/* What a line's items may be: a size, an entry that may be absent, or one that may not. */
enum kind { SIZE, ENTRY, PRESENT };

/* What one item is. */
enum form { WRONG, ABSENT, NUMBER };

struct item {
    enum form form;
    int beyond; /* a number outside +-LIMIT */
    int64_t value; /* where it is not beyond */
};

struct reading {
    const uint8_t *rest;
    size_t length;
};

static int is_digit(uint8_t byte)
{
    return byte >= '0' && byte <= '9';
}

/* "A number is 0, or an optional minus, a digit 1 to 9 and any digits. Absent is a lone minus." */
static struct item read_item(const uint8_t *bytes, size_t length)
{
    struct item item = {WRONG, 0, 0};
    size_t first = length > 0 && bytes[0] == '-' ? 1 : 0, i;
    if (length == 1 && bytes[0] == '-') {
        item.form = ABSENT;
        return item;
    }
    if (length == 1 && bytes[0] == '0') {
        item.form = NUMBER;
        return item;
    }
    if (first == length || bytes[first] == '0') {
        return item;
    }
    for (i = first; i < length; i++) {
        if (!is_digit(bytes[i])) {
            return item;
        }
    }
    item.form = NUMBER;
    /* A numeral of more than six digits is above 100,000, however long; shorter ones cannot overflow. */
    item.beyond = length - first > 6;
    for (i = first; !item.beyond && i < length; i++) {
        item.value = 10 * item.value + (bytes[i] - '0');
    }
    item.beyond = item.beyond || item.value > LIMIT;
    item.value = first == 1 ? -item.value : item.value;
    return item;
}

/* Splits the rest of a line at its commas. Returns the number of items; only the first `most` are read. */
static size_t split(const uint8_t *bytes, size_t length, struct item *items, size_t most)
{
    size_t count = 0, start = 0, i;
    for (i = 0; i <= length; i++) {
        if (i == length || bytes[i] == ',') {
            if (count < most) {
                items[count] = read_item(bytes + start, i - start);
            }
            count++;
            start = i + 1;
        }
    }
    return count;
}

/* The fault of a line whose form is right, or 0. */
static uint32_t fault(enum kind kind, const struct item *items, size_t count)
{
    size_t i;
    for (i = 0; i < count; i++) {
        if (kind == SIZE && items[i].form == ABSENT) {
            return 2;
        }
    }
    for (i = 0; i < count; i++) {
        if (kind == SIZE && (items[i].beyond || items[i].value < 1 || items[i].value > MOST)) {
            return 3;
        }
    }
    for (i = 0; i < count; i++) {
        if (kind != SIZE && items[i].form == NUMBER && items[i].beyond) {
            return 4;
        }
    }
    for (i = 0; i < count; i++) {
        if (kind == PRESENT && items[i].form == ABSENT) {
            return 5;
        }
    }
    return 0;
}

/* One line: its entries, and 0 or its refusal. */
static uint32_t read_line(struct reading *reading, const char *key, enum kind kind, int count, int64_t *entries)
{
    const uint8_t *line = reading->rest;
    const uint8_t *end = reading->length == 0 ? NULL : (const uint8_t *)memchr(line, '\n', reading->length);
    size_t key_length = strlen(key), length, i;
    struct item items[MOST];
    uint32_t refusal;
    if (end == NULL) {
        return 2;
    }
    length = (size_t)(end - line);
    reading->rest = end + 1;
    reading->length -= length + 1;
    if (length < key_length || memcmp(line, key, key_length) != 0) {
        return 2;
    }
    if (split(line + key_length, length - key_length, items, (size_t)count) != (size_t)count) {
        return 2;
    }
    for (i = 0; i < (size_t)count; i++) {
        if (items[i].form == WRONG) {
            return 2;
        }
    }
    refusal = fault(kind, items, (size_t)count);
    for (i = 0; refusal == 0 && i < (size_t)count; i++) {
        entries[i] = items[i].form == ABSENT ? NONE : items[i].value;
    }
    return refusal;
}

/* Lines of entries, one for each row of a table. */
static uint32_t read_rows(struct reading *reading, const char *key, int lines, int count, int64_t (*rows)[MOST])
{
    uint32_t refusal = 0;
    int i;
    for (i = 0; refusal == 0 && i < lines; i++) {
        refusal = read_line(reading, key, ENTRY, count, rows[i]);
    }
    return refusal;
}

static int key_follows(const struct reading *reading, const char *key)
{
    size_t length = strlen(key);
    return reading->length >= length && memcmp(reading->rest, key, length) == 0;
}

static int all_absent(const int64_t *entries, int count)
{
    int i;
    for (i = 0; i < count; i++) {
        if (entries[i] != NONE) {
            return 0;
        }
    }
    return 1;
}

void clear_tables(struct tables *tables)
{
    int i, j;
    tables->rule = 1;
    tables->panels = tables->triggers = 0;
    for (i = 0; i < MOST; i++) {
        tables->floor[i] = tables->due[i] = tables->last[i] = NONE;
        for (j = 0; j < MOST; j++) {
            tables->lag[i][j] = tables->after[i][j] = tables->land[i][j] = NONE;
        }
    }
}

/* "A sheet may begin with `rule=2`; without it the old rule holds, and any other value there is refused as 2." */
static uint32_t read_rule(struct reading *reading, struct tables *tables)
{
    static const char LINE[] = "rule=2\n";
    if (!key_follows(reading, "rule=")) {
        return 0;
    }
    if (!key_follows(reading, LINE)) {
        return 2;
    }
    reading->rest += strlen(LINE);
    reading->length -= strlen(LINE);
    tables->rule = 2;
    return 0;
}

/* "Under rule 2 the floor and due lines are left out." */
static uint32_t read_marks(struct reading *reading, struct tables *tables)
{
    uint32_t refusal;
    if (by_spread(tables)) {
        return 0;
    }
    if ((refusal = read_line(reading, "floor=", ENTRY, tables->panels, tables->floor)) != 0) {
        return refusal;
    }
    return read_line(reading, "due=", PRESENT, tables->triggers, tables->due);
}

/* The lines of the rule, of sizes and of tables. */
static uint32_t read_front(struct reading *reading, struct tables *tables)
{
    int64_t size = 0;
    uint32_t refusal;
    int m, n;
    if ((refusal = read_rule(reading, tables)) != 0) {
        return refusal;
    }
    if ((refusal = read_line(reading, "panels=", SIZE, 1, &size)) != 0) {
        return refusal;
    }
    m = tables->panels = (int)size;
    if ((refusal = read_line(reading, "triggers=", SIZE, 1, &size)) != 0) {
        return refusal;
    }
    n = tables->triggers = (int)size;
    if ((refusal = read_rows(reading, "lag=", m, n, tables->lag)) != 0) {
        return refusal;
    }
    if ((refusal = read_marks(reading, tables)) != 0) {
        return refusal;
    }
    return read_rows(reading, "after=", n, n, tables->after);
}

/* The lines that may follow. "Either all n lines are there or none": one land key, and all must be. Any other bytes are left over. */
static uint32_t read_further(struct reading *reading, struct tables *tables)
{
    int m = tables->panels, n = tables->triggers;
    uint32_t refusal;
    if (key_follows(reading, "land=") && (refusal = read_rows(reading, "land=", n, m, tables->land)) != 0) {
        return refusal;
    }
    if (key_follows(reading, "last=") && (refusal = read_line(reading, "last=", PRESENT, m, tables->last)) != 0) {
        return refusal;
    }
    return reading->length == 0 ? 0 : 2;
}

/* After the lines: 6, a panel with no lag; then 7, no floor at all, or under rule 2 in its place 14. */
static uint32_t read_whole(const struct tables *tables)
{
    int i;
    for (i = 0; i < tables->panels; i++) {
        if (all_absent(tables->lag[i], tables->triggers)) {
            return 6;
        }
    }
    if (by_spread(tables)) {
        return has_lagless(tables) ? 14 : 0;
    }
    return all_absent(tables->floor, tables->panels) ? 7 : 0;
}

uint32_t read_tables(const uint8_t *sheet, size_t length, struct tables *tables)
{
    struct reading reading = {sheet, length};
    uint32_t refusal;
    clear_tables(tables);
    if (length > LONGEST) {
        return 1;
    }
    if ((refusal = read_front(&reading, tables)) != 0 || (refusal = read_further(&reading, tables)) != 0) {
        return refusal;
    }
    return read_whole(tables);
}
