/* A plugin for qemu's user-mode emulator (plugin interface version 1), for bench/insns: when the program exits it prints to standard error
 * how many instructions ran. With the argument 'addresses=on' it prints before that, for each instruction that ran, its address and how
 * often it ran. The few declarations that it needs of the interface are written out here, since no package ships them as a header. */
#include <inttypes.h>
#include <stdbool.h>
#include <stddef.h>
#include <stdint.h>
#include <stdio.h>
#include <stdlib.h>
#include <string.h>

typedef uint64_t plugin_id;
struct tb;
struct insn;
struct info;
enum inline_op { ADD_U64 };

extern void qemu_plugin_register_vcpu_tb_trans_cb(plugin_id, void (*)(plugin_id, struct tb *));
extern void qemu_plugin_register_atexit_cb(plugin_id, void (*)(plugin_id, void *), void *);
extern size_t qemu_plugin_tb_n_insns(const struct tb *);
extern struct insn *qemu_plugin_tb_get_insn(const struct tb *, size_t);
extern uint64_t qemu_plugin_insn_vaddr(const struct insn *);
extern void qemu_plugin_register_vcpu_tb_exec_inline(struct tb *, enum inline_op, void *, uint64_t);

int qemu_plugin_version = 1;

/* A straight run of instructions, as the emulator translates them. */
struct block {
    struct block *before;
    uint64_t executed;
    size_t count;
    uint64_t addresses[];
};

static struct block *last;
static bool addresses;

static void translated(plugin_id id, struct tb *tb)
{
    (void)id;
    size_t count = qemu_plugin_tb_n_insns(tb);
    struct block *block = calloc(1, sizeof *block + count * sizeof block->addresses[0]);
    if (block == NULL)
        abort();
    block->before = last;
    block->count = count;
    for (size_t i = 0; i < count; i++)
        block->addresses[i] = qemu_plugin_insn_vaddr(qemu_plugin_tb_get_insn(tb, i));
    last = block;
    qemu_plugin_register_vcpu_tb_exec_inline(tb, ADD_U64, &block->executed, 1);
}

static void ended(plugin_id id, void *unused)
{
    (void)id;
    (void)unused;
    uint64_t instructions = 0;
    for (const struct block *block = last; block != NULL; block = block->before) {
        instructions += block->executed * block->count;
        for (size_t i = 0; addresses && block->executed != 0 && i < block->count; i++)
            fprintf(stderr, "%" PRIx64 " %" PRIu64 "\n", block->addresses[i], block->executed);
    }
    fprintf(stderr, "instructions: %" PRIu64 "\n", instructions);
}

int qemu_plugin_install(plugin_id id, const struct info *info, int argc, char **argv)
{
    (void)info;
    for (int i = 0; i < argc; i++)
        addresses = addresses || strcmp(argv[i], "addresses=on") == 0;
    qemu_plugin_register_vcpu_tb_trans_cb(id, translated);
    qemu_plugin_register_atexit_cb(id, ended, NULL);
    return 0;
}
