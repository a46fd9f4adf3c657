/* A plugin for QEMU's user emulator: it counts the instructions that a program executes, and prints their number on standard error at the end. */
#include <inttypes.h>
#include <stddef.h>
#include <stdio.h>

/* what is used of qemu-plugin.h */
typedef uint64_t plugin_id;
struct qemu_plugin_tb;
struct qemu_info_t;
enum { ADD_U64 };
extern void qemu_plugin_register_vcpu_tb_trans_cb(plugin_id, void (*)(plugin_id, struct qemu_plugin_tb *));
extern void qemu_plugin_register_vcpu_tb_exec_inline(struct qemu_plugin_tb *, int, void *, uint64_t);
extern size_t qemu_plugin_tb_n_insns(const struct qemu_plugin_tb *);
extern void qemu_plugin_register_atexit_cb(plugin_id, void (*)(plugin_id, void *), void *);

int qemu_plugin_version = 1;

static uint64_t executed;

/* Each block adds its length whenever it is executed. */
static void on_block(plugin_id id, struct qemu_plugin_tb *block) {
  (void)id;
  qemu_plugin_register_vcpu_tb_exec_inline(block, ADD_U64, &executed, qemu_plugin_tb_n_insns(block));
}

static void on_exit(plugin_id id, void *unused) {
  (void)id;
  (void)unused;
  fprintf(stderr, "\ninstructions %" PRIu64 "\n", executed);
}

int qemu_plugin_install(plugin_id id, const struct qemu_info_t *info, int argc, char **argv) {
  (void)info;
  (void)argc;
  (void)argv;
  qemu_plugin_register_vcpu_tb_trans_cb(id, on_block);
  qemu_plugin_register_atexit_cb(id, on_exit, NULL);
  return 0;
}
