#include "order.h"

#include "tuulveski.h"
#include "tuulveski_words.h"

/* What may follow a record, in a file whose lines so far are all in their places: one type above says all that matters. The list ends
 * with 0. */
static const uint32_t *followers(uint32_t above)
{
    enum { LIST_MOST = 6 };
    static const uint32_t FOLLOWERS[TUULVESKI_RECORDS + 1][LIST_MOST] = {
        [0] = {TUULVESKI_IV},
        [TUULVESKI_IV] = {TUULVESKI_IH},
        [TUULVESKI_IH] = {TUULVESKI_IP, TUULVESKI_IF},
        [TUULVESKI_IP] = {TUULVESKI_II, TUULVESKI_IN},
        [TUULVESKI_II] = {TUULVESKI_IE},
        [TUULVESKI_IE] = {TUULVESKI_IE, TUULVESKI_II, TUULVESKI_IN, TUULVESKI_IP, TUULVESKI_IF},
        [TUULVESKI_IN] = {TUULVESKI_IA},
        [TUULVESKI_IA] = {TUULVESKI_IA, TUULVESKI_IN, TUULVESKI_IP, TUULVESKI_IF},
        [TUULVESKI_IF] = {0},
    };
    return FOLLOWERS[above <= TUULVESKI_RECORDS ? above : 0];
}

void add_record(struct text *message, uint32_t record)
{
    add(message, tuulveski_record_name(record));
    add(message, " (");
    add(message, tuulveski_record_type(record));
    add(message, ")");
}

/* A list may end with the footer, which is no record of a chart. */
static void add_followers(struct text *message, uint32_t above, bool within_chart)
{
    const uint32_t *list = followers(above);
    size_t count = 0;
    while (list[count] != 0 && !(within_chart && list[count] == TUULVESKI_IF))
        count++;
    for (size_t i = 0; i < count; i++) {
        if (i > 0)
            add(message, i + 1 == count ? " or " : ", ");
        add_record(message, list[i]);
    }
}

void explain_place(struct text *message, uint32_t record, uint32_t above)
{
    add(message, tuulveski_cause_text(TUULVESKI_CAUSE_PLACE));
    add(message, ": ");
    add_record(message, record);
    if (above == 0) {
        add(message, " at the start of the file");
    } else {
        add(message, " after ");
        add_record(message, above);
    }
    if (above == TUULVESKI_IF) {
        add(message, "; nothing stands after the footer");
        return;
    }
    add(message, "; ");
    add_followers(message, above, false);
    add(message, " would be right");
}

void explain_end(struct text *message, uint32_t above)
{
    add(message, tuulveski_cause_text(TUULVESKI_CAUSE_END));
    if (above == 0) {
        add(message, ": it is empty");
    } else {
        add(message, ": it ends after ");
        add_record(message, above);
    }
    add(message, "; ");
    add_followers(message, above, false);
    add(message, " would be right there");
}

bool may_follow_in_chart(uint32_t record, uint32_t above)
{
    const uint32_t *list = followers(above);
    while (*list != 0 && *list != record)
        list++;
    return *list == record;
}

void explain_chart_place(struct text *message, uint32_t record, uint32_t above)
{
    add(message, tuulveski_cause_text(TUULVESKI_CAUSE_PLACE));
    add(message, ": ");
    add_record(message, record);
    if (above == TUULVESKI_IH) {
        add(message, " at the start of the chart");
    } else {
        add(message, " after ");
        add_record(message, above);
    }
    add(message, "; ");
    add_followers(message, above, true);
    add(message, " would be right");
}

void explain_chart_end(struct text *message, uint32_t above)
{
    add(message, "the chart ends after ");
    add_record(message, above);
    add(message, "; ");
    add_followers(message, above, true);
    add(message, " would be right there");
}
