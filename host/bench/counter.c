/* A plugin of the emulator: counts the instructions that a program executes, and prints the number when the program has ended.
 *
 * The emulator translates a program block by block. Each instruction is counted by a call of its own: a block's length may be
 * one too many, since the emulator takes an instruction back that lies across two pages of memory, and begins a block with it.
 *
 * Declared here is what is used of the emulator's interface for plugins, for which Debian has no header. */
#include <inttypes.h>
#include <stddef.h>
#include <stdio.h>

typedef uint64_t plugin_id;
struct qemu_plugin_tb;
struct qemu_plugin_insn;

void qemu_plugin_register_vcpu_tb_trans_cb(plugin_id id, void (*translated)(plugin_id, struct qemu_plugin_tb *));
size_t qemu_plugin_tb_n_insns(const struct qemu_plugin_tb *block);
struct qemu_plugin_insn *qemu_plugin_tb_get_insn(const struct qemu_plugin_tb *block, size_t place);
void qemu_plugin_register_vcpu_insn_exec_cb(struct qemu_plugin_insn *instruction, void (*executed)(unsigned, void *), int flags, void *given);
void qemu_plugin_register_atexit_cb(plugin_id id, void (*ended)(plugin_id, void *), void *given);

/* Which form of the interface is meant. The compiler is told the one that the emulator asks for. */
extern int qemu_plugin_version;
int qemu_plugin_version = INTERFACE;

/* What is called when an instruction is executed neither reads nor writes the program's registers. */
enum { NO_REGISTERS = 0 };

static uint64_t count;

static void count_one(unsigned processor, void *given)
{
    (void)processor;
    (void)given;
    count++;
}

static void watch_block(plugin_id id, struct qemu_plugin_tb *block)
{
    size_t length = qemu_plugin_tb_n_insns(block);

    (void)id;
    for (size_t i = 0; i < length; i++)
        qemu_plugin_register_vcpu_insn_exec_cb(qemu_plugin_tb_get_insn(block, i), count_one, NO_REGISTERS, NULL);
}

static void print_count(plugin_id id, void *given)
{
    (void)id;
    (void)given;
    printf("%" PRIu64 "\n", count);
    fflush(stdout);
}

int qemu_plugin_install(plugin_id id, const void *machine, int words, char **word);

int qemu_plugin_install(plugin_id id, const void *machine, int words, char **word)
{
    (void)machine;
    (void)words;
    (void)word;
    qemu_plugin_register_vcpu_tb_trans_cb(id, watch_block);
    qemu_plugin_register_atexit_cb(id, print_count, NULL);
    return 0;
}
