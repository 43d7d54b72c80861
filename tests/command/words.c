/* Prints every word of tuulveski_words.h, for tests/command/header; a line `wrong` for words of a number that is not known. */
#include "tuulveski_words.h"
#include <stdio.h>
int main(void)
{
    static const uint32_t far[] = {0, 9, 19, 255, 256, 65536, 4294967295u};
    for (uint32_t a = 0; a < TUULVESKI_ANSWERS; a++)
        printf("answer\t%s\t%s\n", tuulveski_answer_name(a), tuulveski_answer_text(a));
    for (uint32_t c = 1; c <= TUULVESKI_CAUSES; c++)
        printf("cause\t%s\n", tuulveski_cause_text(c));
    for (uint32_t r = 1; r <= TUULVESKI_RULES; r++)
        printf("rule\t%s\t%s\n", tuulveski_rule_name(r), tuulveski_rule_text(r));
    for (uint32_t r = 1; r <= TUULVESKI_RECORDS; r++)
        printf("record\t%s\t%s\t%u\n", tuulveski_record_type(r), tuulveski_record_name(r), (unsigned)tuulveski_record_fields(r));
    for (uint32_t r = 1; r <= TUULVESKI_RECORDS; r++)
        for (uint32_t f = 1; *tuulveski_field_name(r, f); f++)
            printf("field\t%u\t%s\t%s\t%u\n", (unsigned)r, tuulveski_field_name(r, f), tuulveski_field_form(r, f),
                   (unsigned)tuulveski_field_needed(r, f));
    for (uint32_t t = 0; t < 65536; t++) {
        uint8_t text[3] = {(uint8_t)(t >> 8), (uint8_t)t, '|'};
        if (tuulveski_record_of(text, 2))
            printf("type\t%c%c\t%u\n", text[0], text[1], (unsigned)tuulveski_record_of(text, 2));
        if (tuulveski_record_of(text, 0) || tuulveski_record_of(text, 1) || tuulveski_record_of(text, 3))
            printf("wrong\ta type of another length\n");
    }
    for (size_t i = 0; i < sizeof far / sizeof *far; i++) {
        uint32_t n = far[i];
        if (*tuulveski_record_type(n) || *tuulveski_record_name(n) || tuulveski_record_fields(n) || *tuulveski_field_name(n, 1) ||
            *tuulveski_field_form(n, 2) || tuulveski_field_needed(n, 2) || *tuulveski_field_name(TUULVESKI_IA, n) ||
            *tuulveski_field_form(TUULVESKI_IA, n) || tuulveski_field_needed(TUULVESKI_IA, n))
            printf("wrong\trecord or field %u\n", (unsigned)n);
        if (n > 9 && (*tuulveski_answer_name(n) || *tuulveski_answer_text(n)))
            printf("wrong\tanswer %u\n", (unsigned)n);
        if (*tuulveski_cause_text(n) || (n != 9 && (*tuulveski_rule_name(n) || *tuulveski_rule_text(n))))
            printf("wrong\tcause or rule %u\n", (unsigned)n);
    }
    return (*tuulveski_answer_name(10) || *tuulveski_answer_text(10) || *tuulveski_cause_text(8)) ? 1 : 0;
}
