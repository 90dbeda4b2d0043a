/*
 * A plugin for Debian's qemu-x86_64 that counts instructions: those between one getppid of the program that it runs and the next go, a
 * number a line, to the file that its argument out=.. names. Debian has no header of QEMU's plugin interface, so that what is used of it
 * is declared here, in its version 1, which QEMU 7.2 of Debian 12 has.
 */
#include <inttypes.h>
#include <stdio.h>
#include <string.h>

struct qemu_plugin_tb; /* a block of instructions that is run from its first to its last */

typedef void block_translated(uint64_t plugin, struct qemu_plugin_tb *block);
typedef void block_run(unsigned processor, void *data);
typedef void system_called(uint64_t plugin, unsigned processor, int64_t number, uint64_t a1, uint64_t a2, uint64_t a3, uint64_t a4,
                           uint64_t a5, uint64_t a6, uint64_t a7, uint64_t a8);

enum registers { NO_REGISTERS };

size_t qemu_plugin_tb_n_insns(const struct qemu_plugin_tb *block);
void qemu_plugin_register_vcpu_tb_trans_cb(uint64_t plugin, block_translated *call);
void qemu_plugin_register_vcpu_tb_exec_cb(struct qemu_plugin_tb *block, block_run *call, enum registers seen, void *data);
void qemu_plugin_register_vcpu_syscall_cb(uint64_t plugin, system_called *call);

int qemu_plugin_version = 1;
int qemu_plugin_install(uint64_t plugin, const void *about, int count, char **arguments);

enum { GETPPID = 110 }; /* on x86-64 */

static uint64_t instructions;
static int counting;
static FILE *out;

static void add(unsigned processor, void *data)
{
    (void)processor;
    instructions += (uintptr_t)data;
}

static void translated(uint64_t plugin, struct qemu_plugin_tb *block)
{
    (void)plugin;
    qemu_plugin_register_vcpu_tb_exec_cb(block, add, NO_REGISTERS, (void *)(uintptr_t)qemu_plugin_tb_n_insns(block));
}

static void called(uint64_t plugin, unsigned processor, int64_t number, uint64_t a1, uint64_t a2, uint64_t a3, uint64_t a4, uint64_t a5,
                   uint64_t a6, uint64_t a7, uint64_t a8)
{
    (void)plugin, (void)processor, (void)a1, (void)a2, (void)a3, (void)a4, (void)a5, (void)a6, (void)a7, (void)a8;
    if (number != GETPPID)
        return;
    if (counting) {
        fprintf(out, "%" PRIu64 "\n", instructions);
        fflush(out);
    }
    counting = !counting;
    instructions = 0;
}

int qemu_plugin_install(uint64_t plugin, const void *about, int count, char **arguments)
{
    (void)about;
    if (count != 1 || strncmp(arguments[0], "out=", 4) != 0 || (out = fopen(arguments[0] + 4, "w")) == NULL)
        return -1;
    qemu_plugin_register_vcpu_tb_trans_cb(plugin, translated);
    qemu_plugin_register_vcpu_syscall_cb(plugin, called);
    return 0;
}
