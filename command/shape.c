#include "shape.h"

#include "fields.h"
#include "odd_byte.h"
#include "order.h"
#include "tuulveski_words.h"
#include "walk.h"

#include <string.h>

enum { MARK_BYTES = 3, UTF16_MARK = 0xFE };

/* A line without its end. */
struct line {
    struct span text;
    uint32_t record;
};

static struct line line_at(const struct bytes *file, size_t start)
{
    struct line line = {{file->at + start, file->len - start}, 0};
    const uint8_t *end = memchr(line.text.at, '\n', line.text.len);
    if (end != NULL) {
        line.text.len = (size_t)(end - line.text.at);
        if (line.text.len > 0 && line.text.at[line.text.len - 1] == '\r')
            line.text.len--;
    }
    tuulveski_field_at type = tuulveski_field_from(file->at, file->len, start, RECORD_TYPE);
    if (type.present)
        line.record = tuulveski_record_of(file->at + type.start, type.length);
    return line;
}

/* How many pipes a text has, which is how many fields; `last` gets the place after pipe number `wanted`, or after the last one. */
static size_t count_pipes(struct span text, size_t wanted, size_t *last)
{
    size_t pipes = 0;
    *last = 0;
    for (size_t i = 0; i < text.len; i++)
        if (text.at[i] == '|') {
            pipes++;
            if (pipes <= wanted)
                *last = i + 1;
        }
    return pipes;
}

static void explain_no_end(struct fault *fault, const struct line *line)
{
    fault->column = line->text.len + 1;
    add(&fault->message, tuulveski_cause_text(TUULVESKI_CAUSE_NO_LF));
    add(&fault->message, ": the file ends with this line, ");
    add_quoted(&fault->message, line->text.at, line->text.len);
    if (memchr(line->text.at, '\r', line->text.len) != NULL)
        add(&fault->message, ", and a carriage return (CR) alone ends no line");
    add(&fault->message, "; every line ends with LF or CR LF, the last one too");
}

/* What a byte often comes from; at the start of a file, what it says of the whole. */
static const char *name_at(const struct line *line, size_t at, bool is_first_line)
{
    static const uint8_t MARK[MARK_BYTES] = {0xEF, 0xBB, 0xBF};
    if (is_first_line && at == 0 && line->text.len >= MARK_BYTES && memcmp(line->text.at, MARK, MARK_BYTES) == 0)
        return " (a byte order mark)";
    if (is_first_line && at == 0 && line->text.at[at] >= UTF16_MARK)
        return " (of a file in UTF-16)";
    return name_of_byte(line->text.at[at]);
}

static void explain_byte(struct fault *fault, const struct line *line, bool is_first_line)
{
    size_t at = 0, unused;
    while (at < line->text.len && is_printable(line->text.at[at]))
        at++;
    fault->column = at + 1;
    add(&fault->message, tuulveski_cause_text(TUULVESKI_CAUSE_BYTE));
    if (at == line->text.len)
        return;
    struct span before = {line->text.at, at};
    size_t field = count_pipes(before, 0, &unused) + 1;
    add(&fault->message, ": byte ");
    add_hex(&fault->message, line->text.at[at]);
    add(&fault->message, name_at(line, at, is_first_line));
    if (field <= tuulveski_record_fields(line->record)) {
        add(&fault->message, " in ");
        add(&fault->message, tuulveski_record_type(line->record));
        add(&fault->message, " ");
        add_number(&fault->message, field);
        add(&fault->message, " ");
        add(&fault->message, tuulveski_field_name(line->record, (uint32_t)field));
    }
    add(&fault->message, "; bytes 0x20 to 0x7E would be right");
}

static void explain_no_pipe(struct fault *fault, const struct line *line)
{
    size_t last;
    fault->column = line->text.len + 1;
    if (line->text.len == 0) {
        add(&fault->message, "the line is empty: a file has no empty lines");
        return;
    }
    count_pipes(line->text, line->text.len, &last);
    add(&fault->message, "the line does not end in a pipe (|): none follows its last field, ");
    add_quoted(&fault->message, line->text.at + last, line->text.len - last);
}

static void explain_type(struct fault *fault, const struct line *line)
{
    const uint8_t *pipe = memchr(line->text.at, '|', line->text.len);
    fault->column = 1;
    add(&fault->message, tuulveski_cause_text(TUULVESKI_CAUSE_TYPE));
    add(&fault->message, ": ");
    add_quoted(&fault->message, line->text.at, pipe == NULL ? line->text.len : (size_t)(pipe - line->text.at));
    add(&fault->message, "; IV, IH, IP, II, IE, IN, IA or IF would be right");
}

static void explain_field_count(struct fault *fault, const struct line *line)
{
    size_t last, due = tuulveski_record_fields(line->record), fields = count_pipes(line->text, due, &last);
    fault->column = last + 1;
    add(&fault->message, fields < due ? "the record has too few fields: " : "the record has too many fields: ");
    add_grouped(&fault->message, fields);
    add(&fault->message, ", where ");
    add_record(&fault->message, line->record);
    add(&fault->message, " has ");
    add_number(&fault->message, due);
}

void explain_shape(const struct bytes *file, const tuulveski_answer *answer, struct fault *fault)
{
    tuulveski_line_at before = tuulveski_line_from(file->at, file->len, 0, 1, answer->line - 1);
    tuulveski_line_at here = tuulveski_line_from(file->at, file->len, before.start, before.line, answer->line);
    struct line line = line_at(file, here.start);
    uint32_t above = answer->line > 1 ? line_at(file, before.start).record : 0;
    fault->column = 1;
    fault->message.len = 0;
    switch (answer->cause) {
    case TUULVESKI_CAUSE_NO_LF:
        explain_no_end(fault, &line);
        break;
    case TUULVESKI_CAUSE_BYTE:
        explain_byte(fault, &line, answer->line == 1);
        break;
    case TUULVESKI_CAUSE_NO_PIPE:
        explain_no_pipe(fault, &line);
        break;
    case TUULVESKI_CAUSE_TYPE:
        explain_type(fault, &line);
        break;
    case TUULVESKI_CAUSE_FIELD_COUNT:
        explain_field_count(fault, &line);
        break;
    case TUULVESKI_CAUSE_PLACE:
        explain_place(&fault->message, line.record, above);
        break;
    default:
        explain_end(&fault->message, above);
        break;
    }
}
