/* A plugin for qemu (its interface 1, which qemu 7.2 has): tells on standard error how many
 * instructions the program ran. The five calls are declared here, so that no header of qemu is
 * asked for. */
#include <inttypes.h>
#include <stdio.h>

struct qemu_plugin_tb;
size_t qemu_plugin_tb_n_insns(const struct qemu_plugin_tb *block);
void qemu_plugin_register_vcpu_tb_trans_cb(uint64_t id,
                                           void (*seen)(uint64_t, struct qemu_plugin_tb *));
void qemu_plugin_register_vcpu_tb_exec_inline(struct qemu_plugin_tb *block, int operation,
                                              void *counter, uint64_t amount);
void qemu_plugin_register_atexit_cb(uint64_t id, void (*over)(uint64_t, void *), void *with);

enum { ADD_U64 = 0 };

int qemu_plugin_version = 1;

static uint64_t instructions;

/* A block of code that qemu has translated: from now on each run of it adds its length. */
static void count_block(uint64_t id, struct qemu_plugin_tb *block)
{
    (void)id;
    qemu_plugin_register_vcpu_tb_exec_inline(block, ADD_U64, &instructions,
                                             qemu_plugin_tb_n_insns(block));
}

static void tell(uint64_t id, void *with)
{
    (void)id;
    (void)with;
    fprintf(stderr, "%" PRIu64 "\n", instructions);
}

int qemu_plugin_install(uint64_t id, const void *info, int argc, char **argv)
{
    (void)info;
    (void)argc;
    (void)argv;
    qemu_plugin_register_vcpu_tb_trans_cb(id, count_block);
    qemu_plugin_register_atexit_cb(id, tell, NULL);
    return 0;
}
