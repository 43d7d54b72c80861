#include "chart_form.h"

#include "codes.h"
#include "odd_byte.h"
#include "order.h"
#include "tuulveski_chart.h"
#include "tuulveski_words.h"

/* A record of a chart: its number, from 1, its bytes, fewer than are due where it is cut short, and what it is in the file. */
struct chart_record {
    size_t number, start, len, due;
    uint32_t kind, record;
    const uint8_t *at;
};

static uint32_t record_of_kind(uint32_t kind)
{
    return kind + (TUULVESKI_IP - TUULVESKI_CHART_IP);
}

/* The record that starts at a byte; of an unknown kind nothing is due. */
static struct chart_record record_at(const struct bytes *chart, size_t start, size_t number)
{
    uint32_t kind = chart->at[start];
    size_t due = tuulveski_chart_record_bytes(kind), left = chart->len - start;
    return (struct chart_record){number, start, due < left ? due : left, due, kind, record_of_kind(kind), chart->at + start};
}

static void add_position(struct text *message, const struct chart_record *record)
{
    add(message, "record ");
    add_number(message, record->number);
    add(message, " at byte ");
    add_number(message, record->start + 1);
    add(message, ": ");
}

static void explain_kind(struct text *message, const struct chart_record *record)
{
    add_position(message, record);
    add(message, "the kind of record is unknown: ");
    add_hex(message, record->at[0]);
    if (record->at[0] >= '1' && record->at[0] < '1' + TUULVESKI_CHART_KINDS)
        add(message, " (a digit, where the byte itself is the kind)");
    else
        add(message, name_of_byte(record->at[0]));
    add(message, "; 0x01 to 0x05 would be right");
    if (record->at[0] == '\n' || record->at[0] == '\r')
        add(message, ", and nothing stands between records");
}

static void explain_cut(struct text *message, const struct chart_record *record)
{
    add_position(message, record);
    add_record(message, record->record);
    add(message, " is cut short: it has ");
    add_grouped(message, record->len);
    add(message, " of ");
    add_grouped(message, record->due);
    add(message, " bytes");
}

/* Where the first byte stands that may not be in a chart; the record's end where there is none. */
static size_t odd_byte_in(const struct chart_record *record)
{
    size_t at = 1;
    while (at < record->len && is_printable(record->at[at]) && record->at[at] != '|')
        at++;
    return at;
}

/* The field that a byte of a record is in. */
static uint32_t field_of(const struct chart_record *record, size_t at)
{
    uint32_t field = TUULVESKI_CHART_FIRST_FIELD;
    while (tuulveski_chart_start(record->kind, field + 1) <= at)
        field++;
    return field;
}

/* The start of a long text is of no use where the byte stands further on. */
static void add_text_around(struct text *message, const struct chart_record *record, uint32_t field, size_t at)
{
    size_t start = tuulveski_chart_start(record->kind, field);
    if (at - start >= QUOTED_MOST)
        return;
    add(message, " ");
    add_quoted(message, record->at + start, code_length(record->at + start, tuulveski_chart_width(record->kind, field)));
}

static const char *name_in_record(uint8_t byte)
{
    if (byte >= TUULVESKI_CHART_IP && byte <= TUULVESKI_CHART_IA)
        return " (a kind of record: perhaps a field before it is too short)";
    return name_of_byte(byte);
}

static void explain_odd_byte(struct text *message, const struct chart_record *record, size_t at)
{
    uint32_t field = field_of(record, at);
    add_position(message, record);
    add(message, tuulveski_record_type(record->record));
    add(message, " ");
    add_number(message, field);
    add(message, " ");
    add(message, tuulveski_field_name(record->record, field));
    add_text_around(message, record, field, at);
    add(message, ": the text has a pipe or a character that is not printable ASCII: ");
    add_hex(message, record->at[at]);
    add(message, name_in_record(record->at[at]));
    add(message, " at byte ");
    add_number(message, record->start + at + 1);
    add(message, "; 0x20 to 0x7E without 0x7C (the pipe) would be right");
}

static void explain_misplaced(struct text *message, const struct chart_record *record, uint32_t above)
{
    add_position(message, record);
    explain_chart_place(message, record->record, above);
}

/* Whether something is wrong with a record, which is then added. */
static bool explain_record(struct text *message, const struct chart_record *record, uint32_t above)
{
    if (record->due == 0)
        explain_kind(message, record);
    else if (record->len < record->due)
        explain_cut(message, record);
    else if (odd_byte_in(record) < record->len)
        explain_odd_byte(message, record, odd_byte_in(record));
    else if (!may_follow_in_chart(record->record, above))
        explain_misplaced(message, record, above);
    else
        return false;
    return true;
}

bool explain_chart(const struct bytes *chart, struct text *message)
{
    uint32_t above = TUULVESKI_IH;
    size_t number = 1;
    for (size_t at = 0; at < chart->len; number++) {
        struct chart_record record = record_at(chart, at, number);
        if (explain_record(message, &record, above))
            return true;
        above = record.record;
        at += record.due;
    }
    if (may_follow_in_chart(TUULVESKI_IF, above))
        return false;
    explain_chart_end(message, above);
    return true;
}

struct chart_counts count_chart(const struct bytes *chart)
{
    struct chart_counts counts = {0, 0, 0, 0};
    for (size_t at = 0; at < chart->len; counts.records++) {
        size_t bytes = tuulveski_chart_record_bytes(chart->at[at]);
        if (bytes == 0)
            break;
        counts.patients += chart->at[at] == TUULVESKI_CHART_IP;
        counts.immunizations += chart->at[at] == TUULVESKI_CHART_II;
        counts.not_immunized += chart->at[at] == TUULVESKI_CHART_IN;
        at += bytes;
    }
    return counts;
}
