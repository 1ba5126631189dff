/* counting.c: a plugin for qemu-x86_64 that counts the instructions which a program executes. Each translated block adds its length when it runs.
 * The count is written to the file that the option `to` names. The names of the plugin interface that it uses (version 1) are declared here. */
#include <inttypes.h>
#include <stddef.h>
#include <stdio.h>
#include <string.h>

struct qemu_plugin_tb;
typedef uint64_t plugin_id;

void qemu_plugin_register_vcpu_tb_trans_cb(plugin_id, void (*)(plugin_id, struct qemu_plugin_tb *));
void qemu_plugin_register_vcpu_tb_exec_inline(struct qemu_plugin_tb *, int add, void *, uint64_t);
void qemu_plugin_register_atexit_cb(plugin_id, void (*)(plugin_id, void *), void *);
size_t qemu_plugin_tb_n_insns(const struct qemu_plugin_tb *);

#define SHOWN __attribute__((visibility("default")))
SHOWN int qemu_plugin_version = 1;

static uint64_t instructions;
static char file[1024];

static void block(plugin_id id, struct qemu_plugin_tb *b)
{
    (void)id;
    qemu_plugin_register_vcpu_tb_exec_inline(b, 0, &instructions, qemu_plugin_tb_n_insns(b));
}

static void end(plugin_id id, void *none)
{
    (void)id, (void)none;
    FILE *f = fopen(file, "w");
    if (!f) return;
    fprintf(f, "%" PRIu64 "\n", instructions);
    fclose(f);
}

SHOWN int qemu_plugin_install(plugin_id id, const void *info, int argc, char **argv)
{
    (void)info;
    if (argc != 1 || strncmp(argv[0], "to=", 3) || strlen(argv[0]) >= sizeof file) return -1;
    strcpy(file, argv[0] + 3);
    qemu_plugin_register_vcpu_tb_trans_cb(id, block);
    qemu_plugin_register_atexit_cb(id, end, NULL);
    return 0;
}
