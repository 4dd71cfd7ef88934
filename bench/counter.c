/* A plugin for qemu that counts executed instructions. At each call of getppid, and at the end, it writes how many
 * there were so far to standard error, a number a line. The functions are those of qemu-plugin.h, which Debian does
 * not package: bench/run compiles this file with the VERSION of the interface that the qemu at hand asks for.
 */
#include <stddef.h>
#include <stdint.h>
#include <stdio.h>

typedef uint64_t id_t64;
struct qemu_plugin_tb;

extern void qemu_plugin_register_vcpu_tb_trans_cb(id_t64, void (*)(id_t64, struct qemu_plugin_tb *));
extern size_t qemu_plugin_tb_n_insns(const struct qemu_plugin_tb *);
extern void qemu_plugin_register_vcpu_tb_exec_cb(struct qemu_plugin_tb *, void (*)(unsigned, void *), int, void *);
extern void qemu_plugin_register_vcpu_syscall_cb(id_t64, void (*)(id_t64, unsigned, int64_t, uint64_t, uint64_t, uint64_t, uint64_t, uint64_t, uint64_t, uint64_t, uint64_t));
extern void qemu_plugin_register_atexit_cb(id_t64, void (*)(id_t64, void *), void *);

int qemu_plugin_version = VERSION;

static uint64_t executed;

enum { GETPPID = 110 }; /* of x86-64 Linux */

static void tell(void) { fprintf(stderr, "%llu\n", (unsigned long long)executed); }

/* a block of instructions is entered: it has as many as it had when it was translated */
static void enter(unsigned cpu, void *length) {
    (void)cpu;
    executed += (uintptr_t)length;
}

static void translate(id_t64 id, struct qemu_plugin_tb *tb) {
    (void)id;
    qemu_plugin_register_vcpu_tb_exec_cb(tb, enter, 0, (void *)qemu_plugin_tb_n_insns(tb));
}

static void call(id_t64 id, unsigned cpu, int64_t number, uint64_t a, uint64_t b, uint64_t c, uint64_t d, uint64_t e, uint64_t f, uint64_t g, uint64_t h) {
    (void)id, (void)cpu, (void)a, (void)b, (void)c, (void)d, (void)e, (void)f, (void)g, (void)h;
    if (number == GETPPID) tell();
}

static void end(id_t64 id, void *data) {
    (void)id, (void)data;
    tell();
}

int qemu_plugin_install(id_t64 id, const void *info, int argc, char **argv);
int qemu_plugin_install(id_t64 id, const void *info, int argc, char **argv) {
    (void)info, (void)argc, (void)argv;
    qemu_plugin_register_vcpu_tb_trans_cb(id, translate);
    qemu_plugin_register_vcpu_syscall_cb(id, call);
    qemu_plugin_register_atexit_cb(id, end, NULL);
    return 0;
}
