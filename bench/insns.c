/* A plugin for qemu's user emulators: counts the instructions that a program runs, and says how many at its end.
 * Debian's qemu-user has no header for plugins, so the few names used are declared here. */
#include <stdint.h>
#include <stdio.h>

struct qemu_plugin_tb;
struct qemu_info;
typedef void on_block(uint64_t id, struct qemu_plugin_tb *block);
typedef void on_run(unsigned cpu, void *data);
typedef void on_end(uint64_t id, void *data);
size_t qemu_plugin_tb_n_insns(const struct qemu_plugin_tb *block);
void qemu_plugin_register_vcpu_tb_trans_cb(uint64_t id, on_block *call);
void qemu_plugin_register_vcpu_tb_exec_cb(struct qemu_plugin_tb *block, on_run *call, int registers, void *data);
void qemu_plugin_register_atexit_cb(uint64_t id, on_end *call, void *data);

/* An emulator refuses a plugin of a version that it does not know; the names above are the same in all of them. */
#ifndef PLUGIN_VERSION
#define PLUGIN_VERSION 1
#endif
int qemu_plugin_version = PLUGIN_VERSION;

static uint64_t instructions;

static void ran(unsigned cpu, void *count)
{
    (void)cpu;
    instructions += (uintptr_t)count;
}

/* A block runs from its first instruction to its last. */
static void block_made(uint64_t id, struct qemu_plugin_tb *block)
{
    (void)id;
    qemu_plugin_register_vcpu_tb_exec_cb(block, ran, 0, (void *)(uintptr_t)qemu_plugin_tb_n_insns(block));
}

static void ended(uint64_t id, void *data)
{
    (void)id, (void)data;
    fprintf(stderr, "instructions: %llu\n", (unsigned long long)instructions);
}

int qemu_plugin_install(uint64_t id, const struct qemu_info *info, int argc, char **argv)
{
    (void)info, (void)argc, (void)argv;
    qemu_plugin_register_vcpu_tb_trans_cb(id, block_made);
    qemu_plugin_register_atexit_cb(id, ended, NULL);
    return 0;
}
