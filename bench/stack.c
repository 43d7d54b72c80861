/* The stack that one call takes: stack TODAY FOLDER ROOM for the check, stack write FOLDER ROOM for the writer
 *
 * The folder has the files `file`, `book` and `ledger`, or the file `chart`; the area has ROOM bytes. The call is made on a thread whose
 * stack was filled with one byte before. Prints how far down from the thread's own part the lowest byte lies that is another after the call,
 * and how many pages above it have such a byte. `bench/stack` runs it.
 */
#include <pthread.h>
#include <sys/mman.h>

#include "lent.h"
#include "tuulveski.h"

#define STACK ((size_t)32 << 20)
#define PAGE ((size_t)4096)
#define PAINT 0xA5

struct call {
    uint32_t today;
    struct bytes file, book, ledger, chart, area;
    uint32_t answer;
};

/* The stack's bytes, from the lowest; a thread starts at the other end. */
static uint8_t *stack;

static void *check(void *lent) {
    struct call *c = lent;
    c->answer = tuulveski_check(c->today, c->file.at, c->file.len, c->book.at, c->book.len, c->ledger.at, c->ledger.len, c->area.at,
                                c->area.len).answer;
    return NULL;
}

static void *write_file(void *lent) {
    struct call *c = lent;
    c->answer = tuulveski_write(PREFIX, PREFIX_LEN, BATCH, BATCH_LEN, c->chart.at, c->chart.len, c->area.at, c->area.len).answer;
    return NULL;
}

/* A thread's own part: what it takes without a call. */
static void *nothing(void *lent) {
    return lent;
}

/* Whether a byte from here to there is another than the paint. */
static int is_written(size_t from, size_t to) {
    while (from < to && stack[from] == PAINT) from++;
    return from < to;
}

/* The lowest byte that a thread writes. */
static size_t lowest(void *(*run)(void *), struct call *c) {
    pthread_t thread;
    pthread_attr_t own;
    memset(stack, PAINT, STACK);
    if (pthread_attr_init(&own) || pthread_attr_setstack(&own, stack, STACK)) stop("thread", "cannot have the stack");
    if (pthread_create(&thread, &own, run, c) || pthread_join(thread, NULL)) stop("thread", "cannot run");
    size_t low = 0;
    while (low < STACK && stack[low] == PAINT) low++;
    return low;
}

int main(int count, char **words) {
    if (count != 4) {
        fputs("stack TODAY | write FOLDER ROOM\n", stderr);
        return 2;
    }
    stack = mmap(NULL, STACK, PROT_READ | PROT_WRITE, MAP_PRIVATE | MAP_ANONYMOUS, -1, 0);
    if (stack == MAP_FAILED) stop("stack", "no memory");
    int is_write = !strcmp(words[1], "write");
    struct call c = {0};
    c.area = area(words[3]);
    if (is_write) {
        c.chart = contents(words[2], "chart");
    } else {
        c.today = (uint32_t)strtoul(words[1], NULL, 10);
        c.file = contents(words[2], "file");
        c.book = contents(words[2], "book");
        c.ledger = contents(words[2], "ledger");
    }
    size_t top = lowest(nothing, &c), low = lowest(is_write ? write_file : check, &c), pages = 0;
    for (size_t page = low / PAGE * PAGE; page < top; page += PAGE) pages += is_written(page, page + PAGE < top ? page + PAGE : top);
    printf("answer %u: %zu bytes of stack, %zu pages of it written\n", (unsigned)c.answer, low < top ? top - low : 0, pages);
    return 0;
}
