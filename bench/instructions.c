// A plugin for qemu-x86_64: counts the instructions that the program runs, and writes their number to standard error at each of its
// sched_yield. So a program that yields before and behind some work has it counted, on any machine and with no clock.
// What it uses of qemu's plugin interface, version 1, is declared here, since Debian has that header in no package.
#include <inttypes.h>
#include <stdio.h>
#include <unistd.h>

typedef uint64_t plugin_id;
struct qemu_plugin_tb;
struct qemu_plugin_insn;
enum qemu_plugin_op { QEMU_PLUGIN_INLINE_ADD_U64 };
typedef void on_block(plugin_id, struct qemu_plugin_tb *);
typedef void on_call(plugin_id, unsigned, int64_t, uint64_t, uint64_t, uint64_t, uint64_t, uint64_t, uint64_t, uint64_t, uint64_t);

size_t qemu_plugin_tb_n_insns(const struct qemu_plugin_tb *);
struct qemu_plugin_insn *qemu_plugin_tb_get_insn(const struct qemu_plugin_tb *, size_t);
void qemu_plugin_register_vcpu_tb_trans_cb(plugin_id, on_block *);
void qemu_plugin_register_vcpu_insn_exec_inline(struct qemu_plugin_insn *, enum qemu_plugin_op, void *, uint64_t);
void qemu_plugin_register_vcpu_syscall_cb(plugin_id, on_call *);

enum { SCHED_YIELD = 24 }; // in x86-64's numbers, whatever the machine that emulates

int qemu_plugin_version = 1;

static uint64_t count; // of a program with one thread

// Counts each instruction by itself. The size of a block would be one too many where the block ends before an instruction that lies on two
// pages: qemu leaves that one to the next block, but numbers it in both.
static void translated(plugin_id id, struct qemu_plugin_tb *block)
{
    for (size_t i = 0; i < qemu_plugin_tb_n_insns(block); i++)
        qemu_plugin_register_vcpu_insn_exec_inline(qemu_plugin_tb_get_insn(block, i), QEMU_PLUGIN_INLINE_ADD_U64, &count, 1);
}

static void called(plugin_id id, unsigned cpu, int64_t number, uint64_t a, uint64_t b, uint64_t c, uint64_t d, uint64_t e, uint64_t f,
                   uint64_t g, uint64_t h)
{
    if (number == SCHED_YIELD)
        dprintf(STDERR_FILENO, "%" PRIu64 "\n", count);
}

int qemu_plugin_install(plugin_id id, const void *info, int arguments, char **argument)
{
    qemu_plugin_register_vcpu_tb_trans_cb(id, translated);
    qemu_plugin_register_vcpu_syscall_cb(id, called);
    return 0;
}
