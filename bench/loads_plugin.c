/* loads_plugin.c: prints every load of a program that qemu runs, as valgrind's lackey prints them; a plugin of qemu, of
 * version 1. Its header is in no package of Debian, so what is used of it is declared here. */
#include <inttypes.h>
#include <stdbool.h>
#include <stddef.h>
#include <stdio.h>
#include <string.h>

typedef uint64_t plugin_id;
typedef uint32_t access_info;
struct qemu_plugin_tb;
struct qemu_plugin_insn;
enum { NO_REGISTERS = 0, LOADS_AND_STORES = 3 };

void qemu_plugin_register_vcpu_tb_trans_cb(plugin_id, void (*)(plugin_id, struct qemu_plugin_tb *));
void qemu_plugin_register_vcpu_mem_cb(struct qemu_plugin_insn *, void (*)(unsigned, access_info, uint64_t, void *), int,
                                      int, void *);
void qemu_plugin_register_atexit_cb(plugin_id, void (*)(plugin_id, void *), void *);
size_t qemu_plugin_tb_n_insns(const struct qemu_plugin_tb *);
struct qemu_plugin_insn *qemu_plugin_tb_get_insn(const struct qemu_plugin_tb *, size_t);
unsigned qemu_plugin_mem_size_shift(access_info);
bool qemu_plugin_mem_is_store(access_info);

int qemu_plugin_version = 1;

static FILE *trace;

/* qemu 7.2 takes stores for loads where it is asked for loads alone, so it is asked for both. */
static void on_access(unsigned processor, access_info info, uint64_t at, void *unused)
{
    (void)processor, (void)unused;
    if (!qemu_plugin_mem_is_store(info))
        fprintf(trace, " L %" PRIx64 ",%u\n", at, 1u << qemu_plugin_mem_size_shift(info));
}

static void on_translation(plugin_id id, struct qemu_plugin_tb *block)
{
    (void)id;
    for (size_t i = 0; i < qemu_plugin_tb_n_insns(block); i++)
        qemu_plugin_register_vcpu_mem_cb(qemu_plugin_tb_get_insn(block, i), on_access, NO_REGISTERS, LOADS_AND_STORES,
                                         NULL);
}

static void on_exit_of_program(plugin_id id, void *unused)
{
    (void)id, (void)unused;
    fclose(trace);
}

/* The one argument is trace=FILE. */
int qemu_plugin_install(plugin_id id, const void *info, int arguments, char **argument)
{
    (void)info;
    if (arguments != 1 || strncmp(argument[0], "trace=", strlen("trace=")) != 0)
        return 1;
    trace = fopen(argument[0] + strlen("trace="), "w");
    if (trace == NULL)
        return 1;
    qemu_plugin_register_vcpu_tb_trans_cb(id, on_translation);
    qemu_plugin_register_atexit_cb(id, on_exit_of_program, NULL);
    return 0;
}
