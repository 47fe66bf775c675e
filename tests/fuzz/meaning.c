/* Document 01, "One cue in one house", and document 02, No. 2, 4, 5 and 7: times on the tables of a sheet, and none of the method. */
#include "meaning.h"

#define PLACES (2 * MOST) /* of a circle: the triggers, then the panels */

/* y(i), the largest a(i,j) + x(j); absent where no trigger with a time reaches the panel. */
static int64_t landing(const struct tables *tables, const int64_t *times, int panel)
{
    int64_t largest = NONE;
    int j;
    for (j = 0; j < tables->triggers; j++) {
        if (tables->lag[panel][j] != NONE && times[j] != NONE && tables->lag[panel][j] + times[j] > largest) {
            largest = tables->lag[panel][j] + times[j];
        }
    }
    return largest;
}

/* x(i) >= b(i,j) + x(j) for every trigger j. */
static int keeps_after(const struct tables *tables, const int64_t *times, int i)
{
    int j;
    for (j = 0; j < tables->triggers; j++) {
        if (tables->after[i][j] != NONE && times[i] < tables->after[i][j] + times[j]) {
            return 0;
        }
    }
    return 1;
}

/* x(i) >= c(i,j) + y(j) for every panel j. */
static int keeps_land(const struct tables *tables, const int64_t *times, int i)
{
    int j;
    for (j = 0; j < tables->panels; j++) {
        if (tables->land[i][j] != NONE && times[i] < tables->land[i][j] + landing(tables, times, j)) {
            return 0;
        }
    }
    return 1;
}

int keeps_order(const struct tables *tables, const int64_t *times)
{
    int i;
    for (i = 0; i < tables->triggers; i++) {
        if (!keeps_after(tables, times, i) || !keeps_land(tables, times, i)) {
            return 0;
        }
    }
    return 1;
}

int by_spread(const struct tables *tables)
{
    return tables->rule == 2;
}

int has_floor(const struct tables *tables, int panel)
{
    return by_spread(tables) ? panel < tables->panels : tables->floor[panel] != NONE;
}

int64_t earliest(const struct tables *tables, const int64_t *times)
{
    int64_t earliest = INT64_MAX;
    int i;
    for (i = 0; i < tables->panels; i++) {
        int64_t lands = landing(tables, times, i);
        earliest = lands < earliest ? lands : earliest;
    }
    return earliest;
}

int64_t early(const struct tables *tables, const int64_t *times)
{
    int64_t early = NONE;
    int i;
    for (i = 0; i < tables->panels; i++) {
        int64_t by = tables->floor[i] == NONE ? NONE : tables->floor[i] - landing(tables, times, i);
        early = by > early ? by : early;
    }
    return early;
}

/* Lags and land entries are looked for in all panels, after entries in all triggers. Past the sheet's sizes none is present. */
int is_spare(const struct tables *tables, int trigger)
{
    int i;
    for (i = 0; i < MOST; i++) {
        if (tables->lag[i][trigger] != NONE || tables->after[trigger][i] != NONE || tables->after[i][trigger] != NONE ||
            tables->land[trigger][i] != NONE) {
            return 0;
        }
    }
    return 1;
}

int spares(const struct tables *tables)
{
    int byte = 0, j;
    for (j = 0; j < tables->triggers; j++) {
        byte |= is_spare(tables, j) << j;
    }
    return byte;
}

int is_lagless(const struct tables *tables, int trigger)
{
    int i;
    for (i = 0; i < tables->panels; i++) {
        if (tables->lag[i][trigger] != NONE) {
            return 0;
        }
    }
    return 1;
}

int has_lagless(const struct tables *tables)
{
    int j;
    for (j = 0; j < tables->triggers; j++) {
        if (is_lagless(tables, j) && !is_spare(tables, j)) {
            return 1;
        }
    }
    return 0;
}

/* "The spread of landings, latest less earliest." */
static int64_t spread(const struct tables *tables, const int64_t *times)
{
    int64_t latest = NONE;
    int i;
    for (i = 0; i < tables->panels; i++) {
        int64_t lands = landing(tables, times, i);
        latest = lands > latest ? lands : latest;
    }
    return latest - earliest(tables, times);
}

int64_t deviation(const struct tables *tables, const int64_t *times)
{
    int64_t late = NONE;
    int j;
    if (by_spread(tables)) {
        return spread(tables, times);
    }
    for (j = 0; j < tables->triggers; j++) {
        int64_t by = is_spare(tables, j) ? NONE : times[j] - tables->due[j];
        late = by > late ? by : late;
    }
    return late + early(tables, times);
}

int has_last(const struct tables *tables)
{
    return tables->last[0] != NONE;
}

int in_time(const struct tables *tables, const int64_t *times)
{
    int i;
    for (i = 0; has_last(tables) && i < tables->panels; i++) {
        if (landing(tables, times, i) > tables->last[i]) {
            return 0;
        }
    }
    return 1;
}

int has_land_rule(const struct tables *tables)
{
    int i, j;
    for (i = 0; i < tables->triggers; i++) {
        for (j = 0; j < tables->panels; j++) {
            if (tables->land[i][j] != NONE) {
                return 1;
            }
        }
    }
    return 0;
}

/* What each place is held behind the others by one rule, or by one lag where it is a panel. */
static void held_behind(const struct tables *tables, int64_t sum[PLACES][PLACES])
{
    int i, j;
    for (i = 0; i < MOST; i++) {
        for (j = 0; j < MOST; j++) {
            sum[i][j] = tables->after[i][j];
            sum[i][MOST + j] = tables->land[i][j];
            sum[MOST + i][j] = tables->lag[i][j];
            sum[MOST + i][MOST + j] = NONE;
        }
    }
}

/* The largest sums over ever more places on the way. */
int circle_above_0(const struct tables *tables)
{
    int64_t sum[PLACES][PLACES];
    int i, j, k;
    held_behind(tables, sum);
    for (k = 0; k < PLACES; k++) {
        for (i = 0; i < PLACES; i++) {
            for (j = 0; j < PLACES; j++) {
                if (sum[i][k] != NONE && sum[k][j] != NONE && sum[i][k] + sum[k][j] > sum[i][j]) {
                    sum[i][j] = sum[i][k] + sum[k][j];
                }
            }
        }
    }
    for (i = 0; i < PLACES; i++) {
        if (sum[i][i] > 0) {
            return 1;
        }
    }
    return 0;
}
