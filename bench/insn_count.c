// insn_count.c: a plugin for Debian's qemu-user 7.2 that counts the guest's instructions.
// Its declarations are those of qemu-plugin.h (API version 1), so that no header is needed, and it calls nothing of the C library.
//   qemu-x86_64 -plugin ./libinsn_count.so -d plugin -D LOG PROGRAM ..   writes the count to LOG (no -D: stderr)
typedef __UINT64_TYPE__ u64;
struct qemu_plugin_tb;
extern void qemu_plugin_register_vcpu_tb_trans_cb(u64, void (*)(u64, struct qemu_plugin_tb *));
extern void qemu_plugin_register_vcpu_tb_exec_inline(struct qemu_plugin_tb *, int op, void *, u64);
extern void qemu_plugin_register_atexit_cb(u64, void (*)(u64, void *), void *);
extern __SIZE_TYPE__ qemu_plugin_tb_n_insns(const struct qemu_plugin_tb *);
extern void qemu_plugin_outs(const char *);
int qemu_plugin_version = 1;
static u64 insns;
// Each time that this block of guest code runs, the translated code itself adds the block's length.
static void translated(u64 id, struct qemu_plugin_tb *tb) {
    qemu_plugin_register_vcpu_tb_exec_inline(tb, 0 /* ADD_U64 */, &insns, qemu_plugin_tb_n_insns(tb));
}
static void ended(u64 id, void *none) {
    char s[32], *p = s + sizeof s;
    u64 n = insns;
    *--p = 0;
    *--p = '\n';
    do *--p = '0' + n % 10; while (n /= 10);
    qemu_plugin_outs(p);
}
int qemu_plugin_install(u64 id, const void *info, int argc, char **argv) {
    qemu_plugin_register_vcpu_tb_trans_cb(id, translated);
    qemu_plugin_register_atexit_cb(id, ended, 0);
    return 0;
}
