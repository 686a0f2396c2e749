/* A plugin of qemu's user emulator that counts the instructions of named functions, those that they call included.
 *
 *   qemu-x86_64 -plugin count.so,NAME=ADDRESS,NAME=ADDRESS.. PROGRAM ARGUMENTS
 *
 * ADDRESS is the function's, in hexadecimal, as nm prints it for a program that is linked at fixed addresses. The caller
 * of a named function does not run inside it: a count begins at the function's first instruction and ends at the next
 * one of its caller. Where a named function calls another one, it is counted in the first alone. At the end a line for
 * each function that ran is written to standard error, as callgrind_annotate has it: the count, and `count:NAME`; and
 * one with the instructions of its longest call, and `most NAME`.
 * The declarations are those of version 1 of qemu's interface.
 */
#include <stdint.h>
#include <stdio.h>
#include <stdlib.h>
#include <string.h>

typedef uint64_t plugin;
struct qemu_info;
struct qemu_plugin_tb;
struct qemu_plugin_insn;

void qemu_plugin_register_vcpu_tb_trans_cb(plugin, void (*)(plugin, struct qemu_plugin_tb *));
void qemu_plugin_register_vcpu_tb_exec_cb(struct qemu_plugin_tb *, void (*)(unsigned, void *), int, void *);
void qemu_plugin_register_atexit_cb(plugin, void (*)(plugin, void *), void *);
size_t qemu_plugin_tb_n_insns(const struct qemu_plugin_tb *);
struct qemu_plugin_insn *qemu_plugin_tb_get_insn(const struct qemu_plugin_tb *, size_t);
uint64_t qemu_plugin_insn_vaddr(const struct qemu_plugin_insn *);
size_t qemu_plugin_insn_size(const struct qemu_plugin_insn *);
const char *qemu_plugin_insn_symbol(const struct qemu_plugin_insn *);

int qemu_plugin_version = 1;

/* A function that is counted. */
struct function {
    const char *name;
    uint64_t address, count, most;
};

/* Instructions that are executed one after the other: how many, the addresses of the first and the last, whether the
 * first lies on two pages, whose they are, and the counted function that begins there. qemu ends a block before an
 * instruction that lies on two pages, and yet has it as that block's last one too: there it is not executed. */
struct block {
    uint64_t instructions, first, last;
    int two_pages;
    char owner[128];
    struct function *begins;
};

static struct function functions[64];
static size_t functions_held;
static struct function *counted; /* the one that runs now */
static struct block *before; /* the block that was executed last */
static uint64_t executed, executed_before;
static char caller[128], last[128];

static void execute(unsigned cpu, void *held) {
    struct block *block = held;
    (void)cpu;
    if (block->two_pages && before && before->last == block->first && before->instructions > 1)
        executed--;
    before = block;
    if (counted && strcmp(block->owner, caller) == 0) {
        uint64_t call = executed - executed_before;
        counted->count += call;
        if (call > counted->most)
            counted->most = call;
        counted = NULL;
    }
    if (!counted && block->begins) {
        counted = block->begins;
        executed_before = executed;
        strcpy(caller, last);
    }
    if (!counted)
        strcpy(last, block->owner);
    executed += block->instructions;
}

static void translate(plugin id, struct qemu_plugin_tb *tb) {
    struct qemu_plugin_insn *first = qemu_plugin_tb_get_insn(tb, 0);
    const char *owner = qemu_plugin_insn_symbol(first);
    struct block *block = calloc(1, sizeof *block);
    (void)id;
    if (!block)
        abort();
    block->instructions = qemu_plugin_tb_n_insns(tb);
    block->first = qemu_plugin_insn_vaddr(first);
    block->last = qemu_plugin_insn_vaddr(qemu_plugin_tb_get_insn(tb, block->instructions - 1));
    block->two_pages = block->first / 4096 != (block->first + qemu_plugin_insn_size(first) - 1) / 4096;
    snprintf(block->owner, sizeof block->owner, "%s", owner ? owner : "");
    for (size_t i = 0; i < functions_held; i++)
        if (functions[i].address == block->first)
            block->begins = &functions[i];
    qemu_plugin_register_vcpu_tb_exec_cb(tb, execute, 0, block);
}

static void tell(plugin id, void *held) {
    (void)id, (void)held;
    for (size_t i = 0; i < functions_held; i++)
        if (functions[i].count)
            fprintf(stderr, "%llu count:%s\n%llu most %s\n", (unsigned long long)functions[i].count, functions[i].name,
                    (unsigned long long)functions[i].most, functions[i].name);
}

int qemu_plugin_install(plugin id, const struct qemu_info *info, int words, char **word) {
    (void)info;
    for (int i = 0; i < words && functions_held < 64; i++) {
        char *name = strdup(word[i]), *sign = name ? strchr(name, '=') : NULL;
        if (!sign)
            return 1;
        *sign = 0;
        functions[functions_held].name = name;
        functions[functions_held++].address = strtoull(sign + 1, NULL, 16);
    }
    qemu_plugin_register_vcpu_tb_trans_cb(id, translate);
    qemu_plugin_register_atexit_cb(id, tell, NULL);
    return 0;
}
