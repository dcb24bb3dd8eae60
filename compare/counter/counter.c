/*
 * Counts instructions where the code is emulated: a plugin of QEMU's, which says at the end how many were run. What it calls is
 * declared here, since the emulator's packages bring no header. It is for QEMU up to 8.2; a later one refuses version 1 with a word.
 *
 * It counts by instruction and not by block: a block that ends at a page's end says one instruction too many where the next one
 * lies on both pages, and then a loop's count depends on where it was put.
 */
#include <stddef.h>
#include <stdint.h>
#include <stdio.h>

struct qemu_plugin_tb;
struct qemu_plugin_insn;

size_t qemu_plugin_tb_n_insns(const struct qemu_plugin_tb *block);
struct qemu_plugin_insn *qemu_plugin_tb_get_insn(const struct qemu_plugin_tb *block, size_t at);
void qemu_plugin_register_vcpu_tb_trans_cb(uint64_t plugin, void (*call)(uint64_t, struct qemu_plugin_tb *));
void qemu_plugin_register_vcpu_insn_exec_inline(struct qemu_plugin_insn *instruction, int operation, void *to,
                                                uint64_t number);
void qemu_plugin_register_atexit_cb(uint64_t plugin, void (*call)(uint64_t, void *), void *data);

/* The version of the interface, which the emulator looks for by this name. */
int qemu_plugin_version = 1;

/* The operation that adds a number. */
#define ADD 0

static uint64_t counted;

/* A block was translated: whenever an instruction of it runs, that is counted. */
static void block_made(uint64_t plugin, struct qemu_plugin_tb *block)
{
    (void)plugin;
    for (size_t at = 0; at < qemu_plugin_tb_n_insns(block); at++)
        qemu_plugin_register_vcpu_insn_exec_inline(qemu_plugin_tb_get_insn(block, at), ADD, &counted, 1);
}

static void say(uint64_t plugin, void *data)
{
    (void)plugin;
    (void)data;
    fprintf(stderr, "Collected : %llu\n", (unsigned long long)counted);
}

int qemu_plugin_install(uint64_t plugin, const void *emulator, int argc, char **argv)
{
    (void)emulator;
    (void)argc;
    (void)argv;
    qemu_plugin_register_vcpu_tb_trans_cb(plugin, block_made);
    qemu_plugin_register_atexit_cb(plugin, say, NULL);
    return 0;
}
