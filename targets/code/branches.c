/*
 * A plugin of QEMU: which instructions ran, and which way each branch went.
 *
 * QEMU runs a program in blocks, and a block ends at a branch. The block that runs next says which way the branch went: on to the
 * instruction after it, or elsewhere. At the end a line is written for each block: its first and its last instruction in hexadecimal,
 * how often it ran, and how often elsewhere or the next instruction came after it.
 *
 *     qemu-system-arm ... -plugin ./branches.so,out=FILE
 *
 * Nothing is seen of an IT block: QEMU reports its instructions whether or not they are skipped (see conditions.c).
 * Debian has no header for plugins, so what is used of version 1 of their interface is declared here.
 */
#include <stdint.h>
#include <stdio.h>
#include <stdlib.h>
#include <string.h>

#define FOR_QEMU __attribute__((visibility("default")))

typedef uint64_t plugin_id;
struct qemu_plugin_tb;
struct qemu_plugin_insn;
enum { NO_REGISTERS = 0 };

void qemu_plugin_register_vcpu_tb_trans_cb(plugin_id id, void (*translated)(plugin_id, struct qemu_plugin_tb *));
void qemu_plugin_register_vcpu_tb_exec_cb(struct qemu_plugin_tb *tb, void (*ran)(unsigned cpu, void *data), int registers, void *data);
void qemu_plugin_register_atexit_cb(plugin_id id, void (*ended)(plugin_id, void *), void *data);
size_t qemu_plugin_tb_n_insns(const struct qemu_plugin_tb *tb);
struct qemu_plugin_insn *qemu_plugin_tb_get_insn(const struct qemu_plugin_tb *tb, size_t index);
uint64_t qemu_plugin_insn_vaddr(const struct qemu_plugin_insn *insn);
size_t qemu_plugin_insn_size(const struct qemu_plugin_insn *insn);

FOR_QEMU int qemu_plugin_version = 1;

/* QEMU may translate the same instructions more than once. Each time they are a block of their own; the reader adds the lines up. */
struct block {
    uint64_t first, last, after;
    uint64_t runs, elsewhere, next;
    struct block *older;
};

static struct block *newest, *running;
static FILE *out;

static void block_runs(unsigned cpu, void *data) {
    struct block *const block = data;
    (void)cpu;
    block->runs++;
    if (running != NULL) {
        if (block->first == running->after) running->next++;
        else running->elsewhere++;
    }
    running = block;
}

static void block_translated(plugin_id id, struct qemu_plugin_tb *tb) {
    struct qemu_plugin_insn *const last = qemu_plugin_tb_get_insn(tb, qemu_plugin_tb_n_insns(tb) - 1);
    struct block *const block = calloc(1, sizeof *block);
    (void)id;
    if (block == NULL) abort();
    block->first = qemu_plugin_insn_vaddr(qemu_plugin_tb_get_insn(tb, 0));
    block->last = qemu_plugin_insn_vaddr(last);
    block->after = block->last + qemu_plugin_insn_size(last);
    block->older = newest;
    newest = block;
    qemu_plugin_register_vcpu_tb_exec_cb(tb, block_runs, NO_REGISTERS, block);
}

static void write_blocks(plugin_id id, void *data) {
    (void)id;
    (void)data;
    for (const struct block *b = newest; b != NULL; b = b->older) {
        fprintf(out, "%llx %llx %llu %llu %llu\n", (unsigned long long)b->first, (unsigned long long)b->last, (unsigned long long)b->runs,
                (unsigned long long)b->elsewhere, (unsigned long long)b->next);
    }
    if (fclose(out) != 0) abort();
}

FOR_QEMU int qemu_plugin_install(plugin_id id, const void *info, int argc, char **argv) {
    (void)info;
    if (argc != 1 || strncmp(argv[0], "out=", 4) != 0) return 1;
    out = fopen(argv[0] + 4, "w");
    if (out == NULL) return 1;
    qemu_plugin_register_vcpu_tb_trans_cb(id, block_translated);
    qemu_plugin_register_atexit_cb(id, write_blocks, NULL);
    return 0;
}
