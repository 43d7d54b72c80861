#include "remedy.h"

#include "codes.h"
#include "digits.h"
#include "fields.h"
#include "tuulveski_words.h"

#include <string.h>

enum { DATE_BYTES = 8, REASON_DIGITS = 2, ASCII_BLANK = ' ' };

/* A field that takes a code: its kind in the book (none for what the guideline alone lists), and the guideline's table. */
struct table {
    uint32_t record, field;
    enum kind kind;
    const char *thing;
    unsigned number;
};

/* The field's pairs with the vaccine. */
struct pairs {
    enum kind kind;
    const char *thing;
    unsigned number;
};

static const struct table *table_of(uint32_t record, uint32_t field)
{
    static const struct table TABLES[] = {
        {TUULVESKI_II, II_VACCINE, VACCINE, "vaccine", 13},
        {TUULVESKI_II, II_SITE, NO_KIND, "vaccine site", 14},
        {TUULVESKI_II, II_METHOD, NO_KIND, "administering method", 15},
        {TUULVESKI_II, II_REASON, REASON, "reason for immunization", 16},
        {TUULVESKI_II, II_DOSAGE_TYPE, DOSAGE_TYPE, "dosage type", 18},
        {TUULVESKI_II, II_MANUFACTURER, MANUFACTURER, "manufacturer", 19},
        {TUULVESKI_IE, IE_ANTIGEN, ANTIGEN, "antigen", 25},
        {TUULVESKI_IN, IN_REASON, REASON_NOT_IMMUNIZED, "reason not immunized", 27},
        {TUULVESKI_IA, IA_ANTIGEN, ANTIGEN, "antigen", 25},
    };
    static const struct table NONE = {0, 0, NO_KIND, "code", 0};
    for (size_t i = 0; i < sizeof TABLES / sizeof *TABLES; i++)
        if (TABLES[i].record == record && TABLES[i].field == field)
            return &TABLES[i];
    return &NONE;
}

static struct pairs pairs_of(uint32_t record)
{
    struct pairs with_reason = {VACCINE_REASON, "reason", 17}, with_antigen = {VACCINE_ANTIGEN, "antigen", 26};
    return record == TUULVESKI_II ? with_reason : with_antigen;
}

static void pad(uint8_t *code, size_t bytes, struct span span)
{
    memset(code, ASCII_BLANK, bytes);
    memcpy(code, span.at, span.len < bytes ? span.len : bytes);
}

/* A reason is read as two digits: one digit, or a blank and a digit, has a zero before it. */
static void pad_reason(uint8_t *code, struct span reason)
{
    code[0] = '0';
    if (reason.len == REASON_DIGITS && reason.at[0] != ASCII_BLANK)
        code[0] = reason.at[0];
    code[1] = reason.len > 0 ? reason.at[reason.len - 1] : '0';
}

static void pad_field(uint8_t *code, size_t bytes, struct span span)
{
    if (bytes == REASON_DIGITS)
        pad_reason(code, span);
    else
        pad(code, bytes, span);
}

static void see_table(struct text *message, unsigned number)
{
    add(message, "; see Table ");
    add_number(message, number);
    add(message, " of the guideline");
}

void add_unknown_code(struct text *message, const struct setting *setting, const tuulveski_finding *finding)
{
    const struct table *table = table_of(setting->walk.record, finding->field);
    add(message, tuulveski_rule_text(finding->rule));
    if (table->kind == NO_KIND) {
        add(message, ": it is no ");
        add(message, table->thing);
        add(message, " of the guideline's Table ");
        add_number(message, table->number);
        return;
    }
    add(message, ": the book has no such ");
    add(message, table->thing);
    see_table(message, table->number);
}

/* The day that decides: of an IE or IA it is that of the II or IN above. */
static uint32_t record_day(const struct walk *walk)
{
    struct span date = text_of(walk, walk->head.start, walk->head_record == TUULVESKI_IN ? IN_DATE : II_DATE);
    return date.len == DATE_BYTES && are_digits(date.at, date.len) ? number_of(date.at, date.len) : 0;
}

static void add_day(struct text *message, const char *words, uint32_t day)
{
    add(message, words);
    add_number(message, day);
}

/* Why an entry with these days is not in force. */
static void add_days(struct text *message, const struct setting *setting, const struct days *days)
{
    uint32_t day = record_day(&setting->walk);
    bool is_interview = setting->walk.head_record == TUULVESKI_IN;
    if (day < days->start) {
        add_day(message, " starts on ", days->start);
        add_day(message, is_interview ? ", after the interview date, " : ", after the immunization date, ", day);
        return;
    }
    add_day(message, " ended on ", days->end);
    if (day > days->end) {
        add_day(message, is_interview ? ", before the interview date, " : ", before the immunization date, ", day);
        return;
    }
    add_day(message, ", before today, ", setting->today);
    add(message, "; only an immunization that is marked H (II 5 Historical Indicator) can still use it");
}

void add_code_days(struct text *message, const struct setting *setting, const tuulveski_finding *finding)
{
    const struct walk *walk = &setting->walk;
    const struct table *table = table_of(walk->record, finding->field);
    struct code_key key = {.kind = table->kind};
    struct days days;
    pad_field(key.codes, first_code(key.kind), text_of(walk, walk->here.start, finding->field));
    if (!find_days(&setting->codes, &key, &days)) {
        add(message, tuulveski_rule_text(finding->rule));
        return;
    }
    add(message, "the code is not in force: this ");
    add(message, table->thing);
    add_days(message, setting, &days);
}

void add_pair_days(struct text *message, const struct setting *setting, const tuulveski_finding *finding)
{
    const struct walk *walk = &setting->walk;
    struct pairs pairs = pairs_of(walk->record);
    struct span vaccine = text_of(walk, walk->head.start, II_VACCINE), other = text_of(walk, walk->here.start, finding->field);
    struct code_key key = {.kind = pairs.kind};
    uint8_t *second = key.codes + first_code(key.kind);
    struct days days;
    pad(key.codes, first_code(key.kind), vaccine);
    pad_field(second, second_code(key.kind), other);
    bool is_there = find_days(&setting->codes, &key, &days);
    add(message, "the code does not go with the vaccine: ");
    add(message, is_there ? "the pair of vaccine " : "the book does not pair vaccine ");
    add_bytes(message, vaccine.at, vaccine.len);
    add(message, " with ");
    add(message, pairs.thing);
    add(message, " ");
    if (pairs.kind == VACCINE_REASON)
        add_bytes(message, second, second_code(key.kind));
    else
        add_bytes(message, other.at, other.len);
    if (is_there)
        add_days(message, setting, &days);
    else
        see_table(message, pairs.number);
}
