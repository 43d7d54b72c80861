/* A plugin of QEMU 7.2 that counts the instructions that a program executes, by function. At the program's end it writes to standard
 * error a line `count NUMBER NAME` for each function that ran; code without a name has the name `-`.
 *
 * The header of QEMU's plugins comes with its sources only, so what is used of it is declared here: version 1 of its interface.
 */
#include <inttypes.h>
#include <stdio.h>
#include <stdlib.h>
#include <string.h>

#define EXPORTED __attribute__((visibility("default")))

typedef uint64_t plugin_id;
struct qemu_plugin_tb;   /* a stretch of code that runs from its start to its end */
struct qemu_plugin_insn; /* an instruction of it */
enum qemu_plugin_op { QEMU_PLUGIN_INLINE_ADD_U64 };

void qemu_plugin_register_vcpu_tb_trans_cb(plugin_id id, void (*translated)(plugin_id id, struct qemu_plugin_tb *code));
void qemu_plugin_register_vcpu_tb_exec_inline(struct qemu_plugin_tb *code, enum qemu_plugin_op op, void *counter, uint64_t number);
void qemu_plugin_register_atexit_cb(plugin_id id, void (*ended)(plugin_id id, void *data), void *data);
size_t qemu_plugin_tb_n_insns(const struct qemu_plugin_tb *code);
struct qemu_plugin_insn *qemu_plugin_tb_get_insn(const struct qemu_plugin_tb *code, size_t place);
const char *qemu_plugin_insn_symbol(const struct qemu_plugin_insn *instruction);

EXPORTED int qemu_plugin_version = 1;

struct function {
    struct function *next;
    char *name;
    uint64_t executed;
};

static struct function *functions;

static struct function *function_named(const char *name) {
    if (!name || !*name) name = "-";
    for (struct function *f = functions; f; f = f->next)
        if (!strcmp(f->name, name)) return f;
    struct function *f = calloc(1, sizeof *f);
    if (!f || !(f->name = strdup(name))) abort();
    f->next = functions;
    return functions = f;
}

static void translated(plugin_id id, struct qemu_plugin_tb *code) {
    (void)id;
    struct function *f = function_named(qemu_plugin_insn_symbol(qemu_plugin_tb_get_insn(code, 0)));
    qemu_plugin_register_vcpu_tb_exec_inline(code, QEMU_PLUGIN_INLINE_ADD_U64, &f->executed, qemu_plugin_tb_n_insns(code));
}

static void ended(plugin_id id, void *data) {
    (void)id;
    (void)data;
    for (struct function *f = functions; f; f = f->next) fprintf(stderr, "count %" PRIu64 " %s\n", f->executed, f->name);
}

EXPORTED int qemu_plugin_install(plugin_id id, const void *about, int count, char **words) {
    (void)about;
    (void)count;
    (void)words;
    qemu_plugin_register_vcpu_tb_trans_cb(id, translated);
    qemu_plugin_register_atexit_cb(id, ended, NULL);
    return 0;
}
