/* Tuulveski: words for every number that tuulveski.h knows, for showing an answer to a person. All texts are plain ASCII.
 *
 * Of a number that is not known the words are "" and the numbers 0. Nothing here has state, and nothing has to be linked.
 */
#ifndef TUULVESKI_WORDS_H
#define TUULVESKI_WORDS_H

#include <stddef.h>
#include <stdint.h>

/* The records, as field 1 names them. */
#define TUULVESKI_IV 1
#define TUULVESKI_IH 2
#define TUULVESKI_IP 3
#define TUULVESKI_II 4
#define TUULVESKI_IE 5
#define TUULVESKI_IN 6
#define TUULVESKI_IA 7
#define TUULVESKI_IF 8

/* Records, causes and rules count from 1, answers from 0. */
#define TUULVESKI_RECORDS 8
#define TUULVESKI_ANSWERS 10
#define TUULVESKI_CAUSES 7
#define TUULVESKI_RULES 18

/* Word `number`, from 0, of so many. */
static inline const char *tuulveski_word(const char *const *words, size_t count, uint32_t number)
{
    return number < count ? words[number] : "";
}

/* "II" */
static inline const char *tuulveski_record_type(uint32_t record)
{
    static const char *const types[] = {"", "IV", "IH", "IP", "II", "IE", "IN", "IA", "IF"};
    return tuulveski_word(types, sizeof types / sizeof *types, record);
}

/* The record whose type these bytes are (field 1 of a line, exactly two bytes); 0 for any other text. */
static inline uint32_t tuulveski_record_of(const uint8_t *text, size_t length)
{
    uint32_t record = 0;
    if (length == 2)
        for (uint32_t r = 1; r <= TUULVESKI_RECORDS; r++)
            if (text[0] == (uint8_t)tuulveski_record_type(r)[0] && text[1] == (uint8_t)tuulveski_record_type(r)[1])
                record = r;
    return record;
}

/* "Immunization", as the guideline names its records. */
static inline const char *tuulveski_record_name(uint32_t record)
{
    static const char *const names[] = {
        "", "Version", "Header", "Patient", "Immunization", "Antigen Count", "Not Immunized", "Antigen Not Administered", "Footer",
    };
    return tuulveski_word(names, sizeof names / sizeof *names, record);
}

/* How many fields a record has. */
static inline uint32_t tuulveski_record_fields(uint32_t record)
{
    static const uint32_t counts[] = {0, 2, 3, 27, 22, 5, 8, 4, 3};
    return record < sizeof counts / sizeof *counts ? counts[record] : 0;
}

/* A field in words.
 *
 * name     as the guideline's layouts have it.
 * form     what the field takes ("it should be 1 to 20 letters, digits or dashes"); "" where it is carried unjudged. Field 1, the record's
 *          type, is judged with the shape of the file, and has none.
 * needed   0 it may be empty or is not judged, 1 mandatory, 2 mandatory unless the event is historical or out-of-province. */
typedef struct {
    const char *name, *form;
    uint32_t needed;
} tuulveski_field_words;

/* What is said of field `field`, from 1, of a record. */
static inline tuulveski_field_words tuulveski_words_of_field(uint32_t record, uint32_t field)
{
    static const tuulveski_field_words none = {"", "", 0};
    static const tuulveski_field_words fields[] = {
        /* IV */
        {"Record Type", "", 0},
        {"DSG Version Number", "7.2", 1},
        /* IH */
        {"Record Type", "", 0},
        {"Submitter Prefix", "1 to 3 letters or digits", 1},
        {"Batch Number", "1 to 10 letters or digits", 1},
        /* IP */
        {"Record Type", "", 0},
        {"Record Number", "1 to 5 digits, at least 1", 1},
        {"Unique Lifetime Identifier", "nine digits", 1},
        {"Provincial Health Number Type", "", 0},
        {"Provincial Health Number", "", 0},
        {"Alternate Person Identifier Type", "", 0},
        {"Alternate Person Identifier", "", 0},
        {"Last Name", "", 0},
        {"Given Name", "", 0},
        {"Middle Name", "", 0},
        {"Address Type", "", 0},
        {"Street Address 1", "", 0},
        {"Street Address 2", "", 0},
        {"Street Address 3", "", 0},
        {"Street Address 4", "", 0},
        {"City Name", "", 0},
        {"Province Code", "", 0},
        {"Country Code", "", 0},
        {"Postal Code", "", 0},
        {"Quarter Section Code", "", 0},
        {"Section", "", 0},
        {"Township", "", 0},
        {"Range", "", 0},
        {"Meridian", "", 0},
        {"Birth Date", "a date YYYYMMDD of the years 1800 to 2199", 1},
        {"Gender Code", "", 0},
        {"Homeless/Indigent", "", 0},
        /* II */
        {"Record Type", "", 0},
        {"Record Number", "1 to 5 digits, at least 1", 1},
        {"Unique Lifetime Identifier", "nine digits", 1},
        {"Submission Type", "A, C or D", 1},
        {"Historical Indicator", "empty or H", 0},
        {"Immunization Date", "a date YYYYMMDD of the years 1800 to 2199", 1},
        {"Partial/Estimated Date Indicator", "", 0},
        {"Vaccine Code", "1 to 20 characters without blanks", 1},
        {"Vaccine Site Code", "1 to 4 letters", 2},
        {"Administering Method Code", "1 to 3 letters", 2},
        {"Reason For Immunization Code", "one or two digits, or a blank and a digit", 2},
        {"Dosage", "1 to 6 digits, then perhaps a point and one or two digits; above 0", 2},
        {"Dosage Type Code", "1 to 4 letters", 2},
        {"Manufacturer", "1 to 3 letters", 2},
        {"Lot Number", "1 to 20 letters, digits or dashes", 2},
        {"Delivery Organization of Service", "", 0},
        {"Delivery Management Site", "", 0},
        {"Delivery Province Code", "", 0},
        {"Delivery Country Code", "", 0},
        {"Delivery Continent Code", "", 0},
        {"Grade Code", "", 0},
        {"Comment", "", 0},
        /* IE */
        {"Record Type", "", 0},
        {"Record Number", "1 to 5 digits, at least 1", 1},
        {"Unique Lifetime Identifier", "nine digits", 1},
        {"Antigen Code", "1 to 20 characters without blanks", 1},
        {"Antigen Count", "1 or 2 digits, at least 1", 1},
        /* IN */
        {"Record Type", "", 0},
        {"Record Number", "1 to 5 digits, at least 1", 1},
        {"Unique Lifetime Identifier", "nine digits", 1},
        {"Submission Type", "A, C or D", 1},
        {"Interview Date", "a date YYYYMMDD of the years 1800 to 2199", 1},
        {"Reason Not Immunized Code", "1 to 3 letters", 1},
        {"Delivery Organization of Service", "1 to 4 digits", 1},
        {"Grade Code", "empty, or 1 or 2 letters or digits", 0},
        /* IA */
        {"Record Type", "", 0},
        {"Record Number", "1 to 5 digits, at least 1", 1},
        {"Unique Lifetime Identifier", "nine digits", 1},
        {"Antigen Not Administered Code", "1 to 20 characters without blanks", 1},
        /* IF */
        {"Record Type", "", 0},
        {"Total Record Count", "1 to 10 digits", 1},
        {"Checksum", "any text", 1},
    };
    uint32_t place = field;
    if (field == 0 || field > tuulveski_record_fields(record))
        return none;
    for (uint32_t before = 1; before < record; before++)
        place += tuulveski_record_fields(before);
    return fields[place - 1];
}

static inline const char *tuulveski_field_name(uint32_t record, uint32_t field)
{
    return tuulveski_words_of_field(record, field).name;
}

static inline const char *tuulveski_field_form(uint32_t record, uint32_t field)
{
    return tuulveski_words_of_field(record, field).form;
}

static inline uint32_t tuulveski_field_needed(uint32_t record, uint32_t field)
{
    return tuulveski_words_of_field(record, field).needed;
}

/* "ACCEPTED" */
static inline const char *tuulveski_answer_name(uint32_t answer)
{
    static const char *const names[] = {"ACCEPTED", "DATE", "LONG", "BOOK", "LEDGER", "SHAPE", "FINDINGS", "FULL", "RECORD", "ROOM"};
    return tuulveski_word(names, sizeof names / sizeof *names, answer);
}

/* What an answer means, as a sentence without its point. */
static inline const char *tuulveski_answer_text(uint32_t answer)
{
    static const char *const texts[] = {
        "nothing is wrong",
        "today is not a date",
        "the file is longer than 5,000,000 bytes",
        "the code book is malformed",
        "the ledger is malformed",
        "a line is not a record of the right shape in the right place",
        "the shape is right, but records break rules",
        "nothing is wrong, but the ledger has too few slots for the events that would be live",
        "the chart is malformed, or the prefix or the batch number is not of its form",
        "the finished file would be longer than the room for it, or than 5,000,000 bytes",
    };
    return tuulveski_word(texts, sizeof texts / sizeof *texts, answer);
}

/* What is wrong with the line, as a clause that follows `line 7: `. */
static inline const char *tuulveski_cause_text(uint32_t cause)
{
    static const char *const texts[] = {
        "",
        "the line does not end with a line feed (LF)",
        "the line has a character that is not printable ASCII",
        "the line is empty or does not end in a pipe (|)",
        "the record type is unknown",
        "the record has too many or too few fields",
        "a record of this type may not stand here",
        "the file ends before its footer (IF)",
    };
    return tuulveski_word(texts, sizeof texts / sizeof *texts, cause);
}

/* "lot again" */
static inline const char *tuulveski_rule_name(uint32_t rule)
{
    static const char *const names[] = {
        "",
        "mandatory field empty",
        "wrong form",
        "wrong version",
        "unknown code",
        "code not in force",
        "another ULI",
        "wrong record number",
        "date out of range",
        "site against method",
        "partner field empty",
        "wrong vaccine pair",
        "antigen again",
        "antigens differ",
        "lot again",
        "event again",
        "event already live",
        "nothing to change",
        "nothing to delete",
    };
    return tuulveski_word(names, sizeof names / sizeof *names, rule);
}

/* What is wrong, as a clause that follows a field's name and its text: `Lot Number "L1": `. */
static inline const char *tuulveski_rule_text(uint32_t rule)
{
    static const char *const texts[] = {
        "",
        "the field is mandatory, and it is empty",
        "the text is not of the form that this field takes",
        "the version is not 7.2",
        "the code is unknown",
        "the code is not in force on the record's date, or it ended before today and the immunization is not marked H (historical)",
        "the ULI is not that of the patient (IP) above",
        "the number is not the record's place among the IP, II, IE, IN and IA records",
        "the date is after today, or before the patient's birth",
        "site and method do not go together: MO needs PO and PO needs MO, NO needs IN and IN needs NO",
        "the field is empty, but its partner is given: site and method, dosage and its type need each other",
        ("the code does not go with the vaccine: the pair is not in the code book or not in force on the immunization date,"
         " or it ended before today and the immunization is not marked H (historical)"),
        "the antigen is already given in this immunization",
        "the antigens with their counts are not those of the first immunization in this block",
        "the lot is already given in this block",
        "an earlier block of this file names the same event",
        "the event is already in the ledger, so it cannot be added",
        "the event is not in the ledger, so it cannot be changed",
        "the event is not in the ledger, so it cannot be deleted",
    };
    return tuulveski_word(texts, sizeof texts / sizeof *texts, rule);
}

#endif
