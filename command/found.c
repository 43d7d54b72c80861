#include "found.h"

void start_findings(struct setting *setting, uint32_t today, const struct bytes *book, const struct bytes *file)
{
    setting->today = today;
    find_kinds(&setting->codes, book);
    start_walk(&setting->walk, file);
}

void read_finding(struct setting *setting, tuulveski_finding finding, struct found *found)
{
    struct walk *walk = &setting->walk;
    walk_to(walk, finding.line);
    found->finding = finding;
    found->record = walk->record;
    found->text = text_of(walk, walk->here.start, finding.field);
    found->column = (size_t)(found->text.at - walk->file->at) - walk->here.start + 1;
    found->message.len = 0;
    add_message(&found->message, setting, &found->finding);
}
