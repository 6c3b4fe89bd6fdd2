/*
 * A plug-in of qemu-user that counts instructions: whenever the program enters its function `mark`, it writes the instructions since the
 * last time as a line `summary: N`, as callgrind does with --dump-before=mark. Option: out=FILE.
 */
#include <inttypes.h>
#include <stdio.h>
#include <string.h>

/* Debian does not package qemu-plugin.h; these are its declarations, of version 1. */
struct qemu_plugin_tb;
struct qemu_plugin_insn;
extern void qemu_plugin_register_vcpu_tb_trans_cb(uint64_t id, void (*call)(uint64_t id, struct qemu_plugin_tb *tb));
extern size_t qemu_plugin_tb_n_insns(const struct qemu_plugin_tb *tb);
extern struct qemu_plugin_insn *qemu_plugin_tb_get_insn(const struct qemu_plugin_tb *tb, size_t at);
extern const char *qemu_plugin_insn_symbol(const struct qemu_plugin_insn *insn);
extern void qemu_plugin_register_vcpu_insn_exec_inline(struct qemu_plugin_insn *insn, int add, void *to, uint64_t number);
extern void qemu_plugin_register_vcpu_tb_exec_cb(
    struct qemu_plugin_tb *tb, void (*call)(unsigned vcpu, void *data), int registers, void *data);
extern void qemu_plugin_register_atexit_cb(uint64_t id, void (*call)(uint64_t id, void *data), void *data);
__attribute__((visibility("default"))) int qemu_plugin_version = 1;

static FILE *out;
static uint64_t executed;

static void note(void)
{
    fprintf(out, "summary: %" PRIu64 "\n", executed);
    executed = 0;
}

static void at_mark(unsigned vcpu, void *data)
{
    (void)vcpu;
    (void)data;
    note();
}

static void at_exit(uint64_t id, void *data)
{
    (void)id;
    (void)data;
    note();
    fclose(out);
}

/* Every instruction adds 1 when it is executed; a repeated string instruction adds 1 a pass. `mark` is one block, since it does nothing. */
static void translated(uint64_t id, struct qemu_plugin_tb *tb)
{
    const char *function = qemu_plugin_insn_symbol(qemu_plugin_tb_get_insn(tb, 0));
    (void)id;
    if (function != NULL && strcmp(function, "mark") == 0)
        qemu_plugin_register_vcpu_tb_exec_cb(tb, at_mark, 0, NULL);
    for (size_t i = 0; i < qemu_plugin_tb_n_insns(tb); i++)
        qemu_plugin_register_vcpu_insn_exec_inline(qemu_plugin_tb_get_insn(tb, i), 0, &executed, 1);
}

__attribute__((visibility("default"))) int qemu_plugin_install(uint64_t id, const void *info, int count, char **options)
{
    (void)info;
    if (count == 1 && strncmp(options[0], "out=", 4) == 0)
        out = fopen(options[0] + 4, "w");
    if (out == NULL)
        return 1;
    qemu_plugin_register_vcpu_tb_trans_cb(id, translated);
    qemu_plugin_register_atexit_cb(id, at_exit, NULL);
    return 0;
}
