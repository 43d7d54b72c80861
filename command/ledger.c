#include "actions.h"
#include "codes.h"
#include "commands.h"
#include "ledger_events.h"
#include "ledger_file.h"
#include "ledger_form.h"
#include "say.h"
#include "sound.h"

#include <stdio.h>
#include <stdlib.h>
#include <string.h>

enum { PATIENCE_SECONDS = 60, FAULTS_TOLD = 20, DIGITS_MOST = 6 };

static const char USAGE[] =
    "usage: tuulveski ledger new LEDGER SLOTS       a new ledger of so many free slots, 0 to 100000\n"
    "       tuulveski ledger grow LEDGER SLOTS      so many more free slots, at most 100000 in all\n"
    "       tuulveski ledger show LEDGER            the live events, one a line: ULI DATE VACCINE\n"
    "       tuulveski ledger import LEDGER EVENTS   makes the events of a text live, all or none; - is standard input\n"
    "\n"
    "EVENTS has an event a line, as `ledger show` prints them. Lines that are empty or begin with # are passed over. A\n"
    "ledger is replaced whole or stays as it was, and one process alters it at a time. How many slots are live and free\n"
    "goes to standard error.\n"
    "\n"
    "Exit status: 0 done; 1 refused, for what the text or the ledger holds; 2 could not be done.\n";

/* A number from 0 to TUULVESKI_SLOTS_MOST. */
static bool read_slots(const char *text, size_t *slots)
{
    size_t digits = strlen(text);
    if (digits < 1 || digits > DIGITS_MOST || !are_digits((const uint8_t *)text, digits))
        return false;
    *slots = strtoul(text, NULL, 10);
    return *slots <= TUULVESKI_SLOTS_MOST;
}

static int refuse_slots(const char *text)
{
    return refuse_usage(USAGE, "ledger: '%s' is not a number from 0 to %d", text, TUULVESKI_SLOTS_MOST);
}

static void tell_slots(const uint8_t *ledger, size_t len)
{
    size_t live = live_slots_of(ledger, len);
    fprintf(stderr, "%zu live, %zu free\n", live, len / TUULVESKI_SLOT_BYTES - live);
}

static int new_ledger(const struct request *request)
{
    const char *path = request->operands[0];
    char why[LEDGER_WHY];
    bool exists;
    size_t slots;
    if (!read_slots(request->operands[1], &slots))
        return refuse_slots(request->operands[1]);
    if (strcmp(path, "-") == 0)
        return refuse_usage(USAGE, "ledger new: a ledger is a file, and - is none");
    uint8_t *free_slots = calloc(slots + 1, TUULVESKI_SLOT_BYTES);
    if (free_slots == NULL) {
        say("there is not enough memory");
        return FAILED;
    }
    bool made = ledger_create(path, free_slots, slots * TUULVESKI_SLOT_BYTES, &exists, why);
    if (made)
        tell_slots(free_slots, slots * TUULVESKI_SLOT_BYTES);
    else if (exists)
        say("%s: is there already; nothing was written", path);
    else
        say("%s: %s", path, why);
    free(free_slots);
    return made ? DONE : FAILED;
}

/* Takes hold of a ledger that is sound. */
static bool hold_sound(struct ledger_file *ledger, const char *path)
{
    if (!ledger_hold(ledger, path, PATIENCE_SECONDS)) {
        say("%s: %s", path, ledger->why);
        return false;
    }
    const struct bytes held = {ledger->bytes, ledger->len};
    if (is_ledger(&held, path))
        return true;
    ledger_release(ledger);
    return false;
}

/* Keeps a ledger of which the library says once more that it is one. */
static int keep_sound(struct ledger_file *ledger, const char *path, size_t len)
{
    const struct bytes altered = {ledger->bytes, len};
    if (!is_ledger(&altered, path)) {
        ledger_release(ledger);
        return FAILED;
    }
    size_t live = live_slots_of(ledger->bytes, len), slots = len / TUULVESKI_SLOT_BYTES;
    if (!ledger_keep(ledger, ledger->bytes, len)) {
        say("%s: %s%s", path, ledger->why, ledger->replaced ? "" : "; nothing was altered");
        return FAILED;
    }
    fprintf(stderr, "%zu live, %zu free\n", live, slots - live);
    return DONE;
}

static int grow_ledger(const struct request *request)
{
    const char *path = request->operands[0];
    struct ledger_file ledger;
    size_t more;
    if (!read_slots(request->operands[1], &more))
        return refuse_slots(request->operands[1]);
    if (!hold_sound(&ledger, path))
        return FAILED;
    size_t slots = ledger.len / TUULVESKI_SLOT_BYTES;
    if (slots + more > TUULVESKI_SLOTS_MOST) {
        say("%s: has %zu slots, and %zu more are more than %d; nothing was altered", path, slots, more, TUULVESKI_SLOTS_MOST);
        ledger_release(&ledger);
        return REFUSED;
    }
    memset(ledger.bytes + ledger.len, 0, more * TUULVESKI_SLOT_BYTES);
    return keep_sound(&ledger, path, ledger.len + more * TUULVESKI_SLOT_BYTES);
}

static int show_ledger(const struct request *request)
{
    struct bytes ledger;
    int status = FAILED;
    if (!read_file(request->operands[0], LEDGER_MOST, &ledger))
        return FAILED;
    if (is_ledger(&ledger, request->operands[0]) && finish_output(print_events(&ledger, stdout))) {
        tell_slots(ledger.at, ledger.len);
        status = DONE;
    }
    free_bytes(&ledger);
    return status;
}

/* Whether nothing stands against these events; else that is told. */
static bool may_be_added(const struct entries *events, const struct ledger_file *ledger, const struct request *request)
{
    size_t live = live_slots_of(ledger->bytes, ledger->len), slots = ledger->len / TUULVESKI_SLOT_BYTES;
    if (events->faults > 0) {
        tell_faults(events, text_name(request->operands[1]), FAULTS_TOLD);
        return false;
    }
    if (live + events->count <= slots)
        return true;
    say("%s: no room: %zu to import, %zu free, %zu missing; nothing was altered", request->operands[0], events->count, slots - live,
        live + events->count - slots);
    return false;
}

static int import_into(struct ledger_file *ledger, const struct bytes *text, const struct request *request)
{
    struct bytes held = {ledger->bytes, ledger->len};
    struct entries events;
    int status = FAILED;
    if (!read_events(text, &held, &events)) {
        ledger_release(ledger);
        return FAILED;
    }
    if (may_be_added(&events, ledger, request)) {
        add_events(&events, &held);
        status = keep_sound(ledger, request->operands[0], held.len);
    } else {
        ledger_release(ledger);
        status = REFUSED;
    }
    free_entries(&events);
    return status;
}

/* The text is read before the ledger is held: whoever writes it may take any time. */
static int import_events(const struct request *request)
{
    struct bytes text;
    struct ledger_file ledger;
    if (!read_text(request->operands[1], &text))
        return FAILED;
    int status = hold_sound(&ledger, request->operands[0]) ? import_into(&ledger, &text, request) : FAILED;
    free_bytes(&text);
    return status;
}

int command_ledger(int count, char **words)
{
    static const struct action ACTIONS[] = {
        {"new", 2, false, new_ledger},
        {"grow", 2, false, grow_ledger},
        {"show", 1, false, show_ledger},
        {"import", 2, false, import_events},
    };
    static const struct command LEDGER = {"ledger", USAGE, ACTIONS, sizeof ACTIONS / sizeof ACTIONS[0]};
    return run_command(&LEDGER, count, words);
}
