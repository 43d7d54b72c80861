#include "remedy.h"

#include "dates.h"
#include "digits.h"
#include "fields.h"
#include "tuulveski_words.h"

enum { LINES_BEFORE_PATIENTS = 2, RECORD_NUMBER_MOST = 99999, DATE_BYTES = 8, NEEDED_UNLESS_RELAXED = 2 };

typedef void remedy(struct text *message, const struct setting *setting, const tuulveski_finding *finding);

/* Field `field` of the finding's line. */
static struct span field_here(const struct setting *setting, size_t field)
{
    return text_of(&setting->walk, setting->walk.here.start, field);
}

static void add_span(struct text *message, struct span span)
{
    add_bytes(message, span.at, span.len);
}

static void add_rule_text(struct text *message, const struct setting *setting, const tuulveski_finding *finding)
{
    (void)setting;
    add(message, tuulveski_rule_text(finding->rule));
}

static void add_empty(struct text *message, const struct setting *setting, const tuulveski_finding *finding)
{
    uint32_t record = setting->walk.record;
    add_rule_text(message, setting, finding);
    add(message, ": it takes ");
    add(message, tuulveski_field_form(record, finding->field));
    if (tuulveski_field_needed(record, finding->field) == NEEDED_UNLESS_RELAXED)
        add(message, "; only a historical or out-of-province event may leave it empty");
}

static void add_form(struct text *message, const struct setting *setting, const tuulveski_finding *finding)
{
    add_rule_text(message, setting, finding);
    add(message, ": ");
    add(message, tuulveski_field_form(setting->walk.record, finding->field));
}

static void add_uli(struct text *message, const struct setting *setting, const tuulveski_finding *finding)
{
    add_rule_text(message, setting, finding);
    add(message, ": ");
    add_span(message, text_of(&setting->walk, setting->walk.patient, ULI));
    add(message, " would be right");
}

/* In a file of the right shape every line after IV and IH and before IF is one of those that are numbered. */
static void add_place(struct text *message, const struct setting *setting, const tuulveski_finding *finding)
{
    size_t place = finding->line - LINES_BEFORE_PATIENTS;
    add_rule_text(message, setting, finding);
    add(message, ": ");
    if (place <= RECORD_NUMBER_MOST) {
        add_number(message, place);
        add(message, " would be right");
        return;
    }
    add(message, "no record number goes as far as ");
    add_grouped(message, place);
    add(message, ", so the file has to be split");
}

static void add_date_range(struct text *message, const struct setting *setting, const tuulveski_finding *finding)
{
    struct span date = field_here(setting, finding->field), birth = text_of(&setting->walk, setting->walk.patient, IP_BIRTH);
    uint32_t day = number_of(date.at, date.len);
    bool is_after = day > setting->today;
    bool is_before = birth.len == DATE_BYTES && is_date(birth.at) && day < number_of(birth.at, birth.len);
    add(message, "the date is ");
    if (is_after) {
        add(message, "after today, ");
        add_number(message, setting->today);
    }
    add(message, is_after && is_before ? ", and " : "");
    if (is_before) {
        add(message, "before the birth date, ");
        add_span(message, birth);
    }
}

/* MO goes with PO alone and NO with IN, and the reverse: the given one of the two says what the other has to be. */
static void add_site_or_method(struct text *message, const struct setting *setting, const tuulveski_finding *finding)
{
    bool at_site = finding->field == II_SITE;
    struct span given = field_here(setting, at_site ? II_METHOD : II_SITE);
    bool is_oral = given.len > 0 && given.at[0] == (at_site ? 'P' : 'M');
    add(message, "site and method do not go together: ");
    add(message, at_site ? "method " : "site ");
    add_span(message, given);
    add(message, at_site ? " needs site " : " needs method ");
    if (at_site)
        add(message, is_oral ? "MO" : "NO");
    else
        add(message, is_oral ? "PO" : "IN");
}

static uint32_t partner_of(uint32_t field)
{
    switch (field) {
    case II_SITE:
        return II_METHOD;
    case II_METHOD:
        return II_SITE;
    case II_DOSAGE:
        return II_DOSAGE_TYPE;
    default:
        return II_DOSAGE;
    }
}

static void add_partner(struct text *message, const struct setting *setting, const tuulveski_finding *finding)
{
    uint32_t partner = partner_of(finding->field);
    struct span given = field_here(setting, partner);
    add(message, "the field is empty, but its partner is given: II ");
    add_number(message, partner);
    add(message, " ");
    add(message, tuulveski_field_name(TUULVESKI_II, partner));
    add(message, " is ");
    add_quoted(message, given.at, given.len);
    add(message, "; give both or neither");
}

static void add_first_of_block(struct text *message, const struct setting *setting, const tuulveski_finding *finding)
{
    add_rule_text(message, setting, finding);
    add(message, ", line ");
    add_number(message, setting->walk.first.line);
}

static void add_lot(struct text *message, const struct setting *setting, const tuulveski_finding *finding)
{
    add_rule_text(message, setting, finding);
    if (field_here(setting, finding->field).len == 0)
        add(message, ": an earlier immunization of it has no lot either");
}

/* The event that an II names. */
static void add_event(struct text *message, const struct setting *setting, const tuulveski_finding *finding)
{
    add_rule_text(message, setting, finding);
    add(message, ": ");
    add_span(message, field_here(setting, II_VACCINE));
    add(message, " on ");
    add_span(message, field_here(setting, II_DATE));
    add(message, " for ");
    add_span(message, field_here(setting, ULI));
}

static void add_repeated(struct text *message, const struct setting *setting, const tuulveski_finding *finding)
{
    add_event(message, setting, finding);
    add(message, "; the immunizations of one event stand together, once in a file");
}

static void add_live(struct text *message, const struct setting *setting, const tuulveski_finding *finding)
{
    add_event(message, setting, finding);
    add(message, "; C would be right to change it, D to delete it");
}

static void add_no_change(struct text *message, const struct setting *setting, const tuulveski_finding *finding)
{
    add_event(message, setting, finding);
    add(message, "; A would be right to add it, and if its ULI, date or vaccine is to change, D for the event as it was added and A for "
                 "the new one");
}

static void add_no_delete(struct text *message, const struct setting *setting, const tuulveski_finding *finding)
{
    add_event(message, setting, finding);
    add(message, "; ULI, date and vaccine have to be those that it was added with");
}

void add_message(struct text *message, const struct setting *setting, const tuulveski_finding *finding)
{
    static remedy *const REMEDIES[TUULVESKI_RULES + 1] = {
        [1] = add_empty,
        [2] = add_form,
        [4] = add_unknown_code,
        [5] = add_code_days,
        [6] = add_uli,
        [7] = add_place,
        [8] = add_date_range,
        [9] = add_site_or_method,
        [10] = add_partner,
        [11] = add_pair_days,
        [13] = add_first_of_block,
        [14] = add_lot,
        [15] = add_repeated,
        [16] = add_live,
        [17] = add_no_change,
        [18] = add_no_delete,
    };
    remedy *chosen = finding->rule <= TUULVESKI_RULES ? REMEDIES[finding->rule] : NULL;
    (chosen != NULL ? chosen : add_rule_text)(message, setting, finding);
}
