/*
 * Document 02, No. 2: "either all n lines are there or none, which reads as all absent". What is planned of a sheet whose land lines hold no
 * rule is what is planned without these lines. How often rules that are there make a difference is counted.
 */
#include "land.h"

#include <string.h>

#include "meaning.h"
#include "pairs.h"
#include "planned.h"
#include "writer.h"

struct met_land met_land;

/* Whether the sheet has land lines. No other line holds their key. */
static int has_land(const struct text *text)
{
    static const char KEY[] = "land=";
    size_t length = sizeof KEY - 1, at;
    for (at = 0; at + length <= text->length; at++) {
        if (memcmp(text->bytes + at, KEY, length) == 0) {
            return 1;
        }
    }
    return 0;
}

struct tables without_land(const struct tables *tables)
{
    struct tables fewer = *tables;
    int i, j;
    for (i = 0; i < MOST; i++) {
        for (j = 0; j < MOST; j++) {
            fewer.land[i][j] = NONE;
        }
    }
    return fewer;
}

void check_land(const struct text *text, const struct tables *tables)
{
    static struct planned whole, front;
    struct tables fewer = without_land(tables);
    struct text without;
    int same;
    if (!has_land(text)) {
        return;
    }
    write_tables(&fewer, 0, &without);
    plan_text(&whole, text);
    plan_text(&front, &without);
    same = memcmp(&whole, &front, sizeof whole) == 0;
    expect(same || has_land_rule(tables), "land lines without a rule change the plan");
    met_land.sheets++;
    met_land.no_rule += !has_land_rule(tables);
    met_land.no_order += whole.number == TUZHELAR_ORDER && front.number != TUZHELAR_ORDER;
    met_land.changed += whole.number == TUZHELAR_DONE && !same;
}
