/* What document 01's program prints: the eight numbers of the answer, then line, field and rule of each finding. The fourth number says
 * how many lines follow, so that the answers of several files can be told apart. */
#include "telling.h"
#include "text.h"

#include <stdio.h>

static void put_numbers(const size_t *numbers, size_t count)
{
    struct text line;
    line.len = 0;
    for (size_t i = 0; i < count; i++) {
        add(&line, i == 0 ? "" : " ");
        add_number(&line, numbers[i]);
    }
    add(&line, "\n");
    fwrite(line.at, 1, line.len, stdout);
}

void tell_numbers(const struct told *told)
{
    const tuulveski_answer *a = &told->verdict->answer;
    const size_t eight[] = {a->answer, a->line, a->cause, a->findings, a->added, a->changed, a->deleted, a->not_immunized};
    put_numbers(eight, sizeof eight / sizeof *eight);
    for (size_t i = 0; i < a->findings; i++) {
        tuulveski_finding finding = tuulveski_finding_at(told->verdict->findings.at, i);
        const size_t three[] = {finding.line, finding.field, finding.rule};
        put_numbers(three, sizeof three / sizeof *three);
    }
}
