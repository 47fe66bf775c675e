/* Changes that keep the tightest timings, of the rule, of an entry, and of what triggers are spare, on the tables of a sheet; then the sheet anew. */
#include "related.h"

#include "meaning.h"
#include "rule.h"
#include "writer.h"

static void move(int64_t *entry, int64_t by)
{
    if (*entry != NONE) {
        *entry += by;
    }
}

static void move_all(int64_t *entries, int count, int64_t by)
{
    int i;
    for (i = 0; i < count; i++) {
        move(&entries[i], by);
    }
}

static void exchange(int64_t *a, int64_t *b)
{
    int64_t entry = *a;
    *a = *b;
    *b = entry;
}

static void exchange_panels(struct tables *tables, int a, int b)
{
    int j;
    exchange(&tables->floor[a], &tables->floor[b]);
    exchange(&tables->last[a], &tables->last[b]);
    for (j = 0; j < tables->triggers; j++) {
        exchange(&tables->lag[a][j], &tables->lag[b][j]);
        exchange(&tables->land[j][a], &tables->land[j][b]);
    }
}

/* A panel that lands so much later, is allowed to, and is waited for so much less. */
static void move_panel(struct tables *tables, int panel, int64_t by)
{
    int j;
    move_all(tables->lag[panel], tables->triggers, by);
    move(&tables->floor[panel], by);
    for (j = 0; j < tables->triggers; j++) {
        move(&tables->land[j][panel], -by);
    }
}

/* The same of one panel or, under rule 2, where it has no floor that moves with it and the spread would be another, of all. */
static void move_panels(struct tables *tables, int panel, int64_t by)
{
    int i;
    for (i = 0; i < tables->panels; i++) {
        if (i == panel || by_spread(tables)) {
            move_panel(tables, i, by);
        }
    }
}

/* A panel once more, with another floor, waited for as the first is or not at all. */
static void repeat_panel(struct tables *tables, int panel, int64_t floor, int waited_for)
{
    int j;
    if (tables->panels < MOST) {
        for (j = 0; j < tables->triggers; j++) {
            tables->lag[tables->panels][j] = tables->lag[panel][j];
            tables->land[j][tables->panels] = waited_for ? tables->land[j][panel] : NONE;
        }
        tables->floor[tables->panels] = floor;
        tables->last[tables->panels] = tables->last[panel];
        tables->panels++;
    }
}

/* Where a rule asks for less than two entries together do, it comes to ask for as much, or for 1 less. */
static void raise_rule(struct random *random, int64_t *rule, int64_t there, int64_t on)
{
    if (there != NONE && on != NONE && there + on > *rule) {
        *rule = there + on - below(random, 2);
    }
}

/* A rule that asks for no more than two others do, or than a land rule and a lag do, where there are such. */
static void add_rule(struct random *random, struct tables *tables)
{
    int i = below(random, tables->triggers), j = below(random, tables->triggers), k = below(random, tables->triggers);
    int panel = below(random, tables->panels);
    switch (below(random, 3)) {
    case 0:
        raise_rule(random, &tables->after[i][j], tables->after[i][k], tables->after[k][j]);
        break;
    case 1:
        raise_rule(random, &tables->after[i][j], tables->land[i][panel], tables->lag[panel][j]);
        break;
    default:
        raise_rule(random, &tables->land[i][panel], tables->after[i][k], tables->land[k][panel]);
    }
}

/* After rules in the place of a land rule: to wait for a panel is to come after every trigger that reaches it. */
static void replace_land(struct tables *tables, int i, int panel)
{
    int64_t *rule = &tables->land[i][panel];
    int j;
    for (j = 0; *rule != NONE && j < tables->triggers; j++) {
        int64_t lag = tables->lag[panel][j];
        if (lag != NONE && *rule + lag > tables->after[i][j]) {
            tables->after[i][j] = *rule + lag;
        }
    }
    *rule = NONE;
}

/* Another due mark where the trigger is spare. */
static void move_spare_due(struct random *random, struct tables *tables, int trigger)
{
    if (!by_spread(tables) && is_spare(tables, trigger)) {
        tables->due[trigger] = between(random, -LIMIT, LIMIT);
    }
}

void change_last(struct random *random, struct tables *tables)
{
    int gone = has_last(tables) && chance(random, 40), far = chance(random, 30), i;
    for (i = 0; i < tables->panels; i++) {
        int64_t moment = far ? between(random, -LIMIT, LIMIT) : between(random, -9, 9);
        tables->last[i] = gone ? NONE : moment;
    }
}

/* A change after which the same timings are tightest, and the same triggers spare. */
static void keep_timings(struct random *random, struct tables *tables)
{
    int panel = below(random, tables->panels);
    int64_t by = between(random, -3, 3), lower = tables->floor[panel];
    switch (below(random, 11)) {
    case 0:
        move_all(tables->floor, tables->panels, by);
        break;
    case 1:
        move_all(tables->floor, tables->panels, by);
        move_all(tables->due, tables->triggers, by);
        break;
    case 2:
        move_panels(tables, panel, by);
        break;
    case 3:
        exchange_panels(tables, panel, below(random, tables->panels));
        break;
    case 4:
        move(&lower, -below(random, 2));
        repeat_panel(tables, panel, lower, chance(random, 50));
        break;
    case 5:
        repeat_panel(tables, panel, NONE, chance(random, 50));
        break;
    case 6:
        replace_land(tables, below(random, tables->triggers), panel);
        break;
    case 7:
        move_spare_due(random, tables, below(random, tables->triggers));
        break;
    case 8:
    case 9:
        change_last(random, tables);
        break;
    default:
        add_rule(random, tables);
    }
}

/* One entry moved, come or gone. */
static void change_entry(struct random *random, struct tables *tables)
{
    int i = below(random, tables->panels), j = below(random, tables->triggers), k = below(random, tables->triggers);
    int marks = by_spread(tables) ? 0 : 2;
    int64_t *entry;
    switch (below(random, 6 + marks)) {
    case 0:
    case 1:
        entry = &tables->lag[i][j];
        break;
    case 2:
    case 3:
        entry = &tables->after[j][k];
        break;
    case 4:
    case 5:
        entry = &tables->land[j][i];
        break;
    case 6:
        entry = &tables->floor[i];
        break;
    default:
        tables->due[j] += chance(random, 50) ? 1 : -1;
        return;
    }
    if (*entry == NONE) {
        *entry = between(random, -2, 2);
    } else if (chance(random, 15)) {
        *entry = NONE;
    } else {
        *entry += chance(random, 50) ? 1 : -1;
    }
}

/* A trigger without its rules, and without its lags but where no other trigger reaches the panel. */
static void set_idle(struct tables *tables, int trigger)
{
    int i, j;
    for (i = 0; i < MOST; i++) {
        tables->after[trigger][i] = tables->after[i][trigger] = tables->land[trigger][i] = NONE;
        for (j = 0; j < tables->triggers; j++) {
            if (j != trigger && tables->lag[i][j] != NONE) {
                tables->lag[i][trigger] = NONE;
            }
        }
    }
}

static void exchange_triggers(struct tables *tables, int a, int b)
{
    int i;
    exchange(&tables->due[a], &tables->due[b]);
    for (i = 0; i < MOST; i++) {
        exchange(&tables->lag[i][a], &tables->lag[i][b]);
        exchange(&tables->land[a][i], &tables->land[b][i]);
        exchange(&tables->after[a][i], &tables->after[b][i]);
    }
    for (i = 0; i < MOST; i++) {
        exchange(&tables->after[i][a], &tables->after[i][b]);
    }
}

/* A change of what triggers are spare: a spare one gets a rule that asks for nothing, or another place; another one loses its entries. */
static void change_spares(struct random *random, struct tables *tables)
{
    int j = below(random, tables->triggers);
    if (!is_spare(tables, j)) {
        set_idle(tables, j);
    } else if (chance(random, 50)) {
        tables->after[j][j] = 0;
    } else {
        exchange_triggers(tables, j, below(random, tables->triggers));
    }
}

int make_related(struct random *random, const struct tables *tables, struct text *text)
{
    struct tables changed = by_spread(tables) && chance(random, 50) ? by_marks(tables) : *tables;
    int known = chance(random, 50), entries = chance(random, 70), changes;
    for (changes = below(random, 3) + !known; changes > 0; changes--) {
        if (known) {
            keep_timings(random, &changed);
        } else if (entries) {
            change_entry(random, &changed);
        } else {
            change_spares(random, &changed);
        }
    }
    write_tables(&changed, chance(random, 30), text);
    return known;
}
