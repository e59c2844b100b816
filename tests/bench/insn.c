/* A plug-in of the emulator qemu that counts the instructions of the program it runs, and writes `instructions N` to
 * standard error at its end. It is called before each instruction. (Adding up the lengths of the blocks that qemu
 * translates would be quicker and wrong: qemu can leave a block before its end.)
 *
 * Debian's package of qemu has no header for plug-ins, so what is used of it is declared here: all versions have these.
 * A qemu takes a plug-in that names an interface it knows: number 1 up to qemu 8, number 2 from qemu 9 on. */
#include <inttypes.h>
#include <stddef.h>
#include <stdint.h>
#include <stdio.h>

#ifndef INTERFACE
#define INTERFACE 1
#endif

typedef uint64_t plugin_id;
struct qemu_plugin_tb;
struct qemu_plugin_insn;
enum registers { NO_REGISTERS };

void qemu_plugin_register_vcpu_tb_trans_cb(plugin_id, void (*)(plugin_id, struct qemu_plugin_tb *));
void qemu_plugin_register_vcpu_insn_exec_cb(struct qemu_plugin_insn *, void (*)(unsigned, void *), enum registers,
                                            void *);
void qemu_plugin_register_atexit_cb(plugin_id, void (*)(plugin_id, void *), void *);
size_t qemu_plugin_tb_n_insns(const struct qemu_plugin_tb *);
struct qemu_plugin_insn *qemu_plugin_tb_get_insn(const struct qemu_plugin_tb *, size_t);

int qemu_plugin_version = INTERFACE;

static uint64_t instructions;

static void instruction_runs(unsigned processor, void *nothing) {
    (void)processor;
    (void)nothing;
    instructions++;
}

static void block_is_translated(plugin_id id, struct qemu_plugin_tb *block) {
    (void)id;
    for (size_t k = 0; k < qemu_plugin_tb_n_insns(block); k++) {
        qemu_plugin_register_vcpu_insn_exec_cb(qemu_plugin_tb_get_insn(block, k), instruction_runs, NO_REGISTERS, NULL);
    }
}

static void program_ends(plugin_id id, void *nothing) {
    (void)id;
    (void)nothing;
    fprintf(stderr, "instructions %" PRIu64 "\n", instructions);
}

int qemu_plugin_install(plugin_id id, const void *info, int count, char **words) {
    (void)info;
    (void)count;
    (void)words;
    qemu_plugin_register_vcpu_tb_trans_cb(id, block_is_translated);
    qemu_plugin_register_atexit_cb(id, program_ends, NULL);
    return 0;
}
