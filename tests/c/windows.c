/* windows.c: every call of the library for Windows, called as Windows' calling convention has it, at each place of a page of the stack that is a multiple
 * of 16: registers that a call must keep are kept, and parameters arrive. What it prints is the number of calls.
 *
 *   windows AREA    the file examples/table.c13
 *
 * Made with RECORDED it is linked with the library's thunks alone. Behind each of them stands a function that writes down what it was given, and then
 * destroys every register that System V lets it destroy: each parameter must have arrived in its place, in its own width, with zeros above it, up to 32
 * bits, though the caller had none there, and the stack pointer as System V has it. Without RECORDED it is linked with the whole library: the answer and
 * all lent memory must be those of the same call without its thunk; and its memcpy must copy.
 *
 * calls.inc, which tests/windows makes, has CALL(number, name, "parameters") for each call, in the words of `scripts/windows calls`. */
#include "c13.h"
#include <stdio.h>
#include <stdlib.h>
#include <string.h>

enum { MOST = 12, PAGE = 4096 };

/* A call to be made: the function, how far below a page's start the stack is, the parameters; and for the registers that are kept (rbx, rbp, rdi, rsi, r12 to
 * r15, xmm6 to xmm15) what they hold before it and after it; its answer; by how much the stack pointer has moved. */
typedef void function(void);
struct attempt {
    function *f;
    uint64_t down, given[MOST], before[8], after[8];
    uint8_t xmm_before[160], xmm_after[160];
    uint64_t answer, moved;
};
#ifdef __cplusplus
extern "C" {
#endif
void stack_call(struct attempt *attempt);
extern uint64_t recorded[MOST + 1]; /* what arrived, and the stack pointer */
extern uint32_t which;              /* at which call */
#ifdef __cplusplus
}
#endif

#define XMM(move, from, to) \
    move(6, from, to) move(7, from, to) move(8, from, to) move(9, from, to) move(10, from, to) move(11, from, to) move(12, from, to) move(13, from, to) \
        move(14, from, to) move(15, from, to)
#define XMM_STORE(n, at, base) "movups %xmm" #n ", " #at "+16*(" #n "-6)(" #base ")\n"
#define XMM_LOAD(n, at, base) "movups " #at "+16*(" #n "-6)(" #base "), %xmm" #n "\n"
#define WORDS_STORE(at) \
    "mov %rbx, " #at "(%rax)\n mov %rbp, " #at "+8(%rax)\n mov %rdi, " #at "+16(%rax)\n mov %rsi, " #at "+24(%rax)\n" \
    "mov %r12, " #at "+32(%rax)\n mov %r13, " #at "+40(%rax)\n mov %r14, " #at "+48(%rax)\n mov %r15, " #at "+56(%rax)\n"
#define WORDS_LOAD(at) \
    "mov " #at "(%rax), %rbx\n mov " #at "+8(%rax), %rbp\n mov " #at "+16(%rax), %rdi\n mov " #at "+24(%rax), %rsi\n" \
    "mov " #at "+32(%rax), %r12\n mov " #at "+40(%rax), %r13\n mov " #at "+48(%rax), %r14\n mov " #at "+56(%rax), %r15\n"

/* The fields of an attempt stand at 0, 8, 16, 112, 176, 240, 400, 560 and 568. The pages that the stack is moved over are touched in their order. */
__asm__(".text\n.globl stack_call\nstack_call:\n"
        "push %rbx\n push %rbp\n push %rdi\n push %rsi\n push %r12\n push %r13\n push %r14\n push %r15\n sub $168, %rsp\n" XMM(XMM_STORE, 0, %rsp)
        "orq $0, -4096(%rsp)\n orq $0, -8192(%rsp)\n orq $0, -12288(%rsp)\n"
        "mov %rcx, attempted(%rip)\n mov %rsp, own_stack(%rip)\n mov %rcx, %rax\n"
        "and $-4096, %rsp\n sub 8(%rax), %rsp\n sub $128, %rsp\n"
        "mov $4, %r10\n"
        "1: mov 16(%rax,%r10,8), %r11\n mov %r11, (%rsp,%r10,8)\n inc %r10\n cmp $12, %r10\n jb 1b\n"
        "mov %rsp, called_at(%rip)\n" XMM(XMM_LOAD, 240, %rax) WORDS_LOAD(112)
        "mov 16(%rax), %rcx\n mov 24(%rax), %rdx\n mov 32(%rax), %r8\n mov 40(%rax), %r9\n call *(%rax)\n"
        "mov %rax, %r10\n mov attempted(%rip), %rax\n mov %r10, 560(%rax)\n" WORDS_STORE(176) XMM(XMM_STORE, 400, %rax)
        "sub called_at(%rip), %rsp\n mov %rsp, 568(%rax)\n mov own_stack(%rip), %rsp\n" XMM(XMM_LOAD, 0, %rsp)
        "add $168, %rsp\n pop %r15\n pop %r14\n pop %r13\n pop %r12\n pop %rsi\n pop %rdi\n pop %rbp\n pop %rbx\n ret\n"
        ".data\n.p2align 4\nattempted: .quad 0\nown_stack: .quad 0\ncalled_at: .quad 0\n"
        ".globl recorded\nrecorded: .fill 13, 8, 0\n.globl which\nwhich: .long 0\n.text\n");

/* ---- the calls */

static const struct {
    const char *name;
    function *f;
    const char *parameters;
} calls[] = {
#define CALL(number, name, parameters) {#name, (function *)name, parameters},
#include "calls.inc"
#undef CALL
};
enum { CALLS = sizeof calls / sizeof *calls };

static void fail(uint32_t call, uint64_t down, const char *why) {
    printf("%s at %u bytes below a page: %s\n", calls[call].name, (unsigned)down, why);
    exit(1);
}

/* The bits of the parameters of a call, with 1 for a pointer; how many there are. */
static size_t bits_of(uint32_t call, unsigned *bits) {
    size_t n = 0;
    for (const char *at = calls[call].parameters; *at; at++) {
        if (*at == 'p') bits[n++] = 1;
        else if (*at == '6' || *at == '3' || *at == '1') bits[n++] = 10 * (unsigned)(*at - '0') + (unsigned)(at[1] - '0'), at++;
        else if (*at == '8') bits[n++] = 8;
        else if (*at != ' ') exit(3);
    }
    return n <= MOST ? n : (exit(3), n);
}

/* Makes the call with other numbers in each register that is to be kept, and tests that they are. */
static void called(uint32_t call, struct attempt *a) {
    static uint64_t turn = 1;
    for (size_t i = 0; i < 8; i++) a->before[i] = (turn += 0x9e3779b97f4a7c15);
    for (size_t i = 0; i < 160; i++) a->xmm_before[i] = (uint8_t)((turn += 0x9e3779b97f4a7c15) >> 40);
    a->f = calls[call].f;
    stack_call(a);
    if (memcmp(a->before, a->after, sizeof a->before)) fail(call, a->down, "a register is not kept");
    if (memcmp(a->xmm_before, a->xmm_after, sizeof a->xmm_before)) fail(call, a->down, "a register of xmm6 to xmm15 is not kept");
    if (a->moved) fail(call, a->down, "the stack pointer has moved");
}

#ifdef RECORDED

/* ---- the thunks alone */

#define ONES(n) "pcmpeqd %xmm" #n ", %xmm" #n "\n"
__asm__(".text\nrecorder:\n"
        "mov %rdi, recorded(%rip)\n mov %rsi, recorded+8(%rip)\n mov %rdx, recorded+16(%rip)\n mov %rcx, recorded+24(%rip)\n"
        "mov %r8, recorded+32(%rip)\n mov %r9, recorded+40(%rip)\n lea recorded+48(%rip), %r10\n xor %ecx, %ecx\n"
        "1: mov 8(%rsp,%rcx,8), %rax\n mov %rax, (%r10,%rcx,8)\n inc %ecx\n cmp $6, %ecx\n jb 1b\n mov %rsp, 48(%r10)\n"
        "mov $-1, %rdi\n mov %rdi, %rsi\n mov %rdi, %rdx\n mov %rdi, %rcx\n mov %rdi, %r8\n mov %rdi, %r9\n mov %rdi, %r10\n mov %rdi, %r11\n"
        ONES(0) ONES(1) ONES(2) ONES(3) ONES(4) ONES(5) ONES(6) ONES(7) ONES(8) ONES(9) ONES(10) ONES(11) ONES(12) ONES(13) ONES(14) ONES(15)
        "mov which(%rip), %eax\n add $1000, %eax\n ret\n");
#define CALL(number, name, parameters) __asm__(".text\n.globl " #name "_sysv\n" #name "_sysv: movl $" #number ", which(%rip)\n jmp recorder\n");
#include "calls.inc"
#undef CALL

static void tried(uint32_t call, uint64_t down) {
    struct attempt a;
    unsigned bits[MOST];
    size_t n = bits_of(call, bits);
    a.down = down;
    for (size_t i = 0; i < MOST; i++) a.given[i] = 0xf1e2d3c4b5a69788 + (i + 1) * 0x0101010101010101 * (call % 7 + 1);
    which = CALLS;
    memset(recorded, 0, sizeof recorded);
    called(call, &a);
    if (which != call || (uint32_t)a.answer != 1000 + call) fail(call, down, "another function was called, or its answer is another");
    if (recorded[MOST] % 16 != 8) fail(call, down, "the stack is not aligned behind the thunk");
    for (size_t i = 0; i < n; i++) {
        uint64_t wanted = bits[i] == 1 || bits[i] == 64 ? a.given[i] : a.given[i] & ((UINT64_C(1) << bits[i]) - 1);
        uint64_t got = bits[i] == 1 || bits[i] == 64 ? recorded[i] : (uint32_t)recorded[i];
        if (got != wanted) fail(call, down, "a parameter is another one");
    }
}

static void prepare(const char *path) { (void)path; }

#else

/* ---- the whole library */

typedef __attribute__((sysv_abi)) uint32_t within(uint64_t, uint64_t, uint64_t, uint64_t, uint64_t, uint64_t, uint64_t, uint64_t, uint64_t, uint64_t,
                                                  uint64_t, uint64_t);
#ifdef __cplusplus
extern "C" {
#endif
#define CALL(number, name, parameters) within name##_sysv;
#include "calls.inc"
#undef CALL
__attribute__((sysv_abi)) void *c13_memcpy_sysv(void *to, const void *from, size_t n);
#ifdef __cplusplus
}
#endif
static within *const codes[] = {
#define CALL(number, name, parameters) name##_sysv,
#include "calls.inc"
#undef CALL
};

/* What is lent: the bytes of the area, room for words or bytes in the middle, the words of the answer. */
static uint8_t area[PAGE];
static size_t area_len;
static struct memory {
    uint8_t bytes[PAGE];
    uint32_t words[2][64];
    uint64_t out[C13_MOST];
} lent, first, before;

/* The library's memcpy: all lengths up to 300 from and to each place of 16 bytes copy what they must, and nothing else. */
static void copies(void) {
    static uint8_t from[400], to[400], wanted[400];
    for (size_t i = 0; i < sizeof from; i++) from[i] = (uint8_t)(1 + i % 251);
    for (size_t k = 0; k < 256 * 301; k++) {
        size_t n = k / 256, a = k % 16, b = k / 16 % 16;
        memset(to, 0, sizeof to), memset(wanted, 0, sizeof wanted);
        for (size_t i = 0; i < n; i++) wanted[b + i] = from[a + i];
        if (c13_memcpy_sysv(to + b, from + a, n) == to + b && !memcmp(to, wanted, sizeof to)) continue;
        printf("memcpy of %u bytes from %u to %u\n", (unsigned)n, (unsigned)a, (unsigned)b);
        exit(1);
    }
}

static void prepare(const char *path) {
    copies();
    FILE *file = fopen(path, "rb");
    if (!file) exit(3);
    area_len = fread(area, 1, sizeof area, file);
    fclose(file);
    memset(&before, 0, sizeof before);
    memcpy(before.bytes, area, area_len);
}

/* The parameters of a call: the area or, where it writes to it, a buffer with nothing in it; the words; a small number wherever one is asked for, above which
 * the caller puts what is no part of it. */
static void parameters(uint32_t call, uint64_t small, uint64_t *given) {
    unsigned bits[MOST];
    size_t n = bits_of(call, bits), middle = 0;
    memset(given, 0, MOST * sizeof *given);
    for (size_t i = 0; i < n; i++) {
        int is_first = i == 0, is_last = i + 2 == n;
        if (bits[i] == 1) given[i] = (uint64_t)(uintptr_t)(is_first ? (void *)lent.bytes : is_last ? (void *)lent.out : (void *)lent.words[middle++ % 2]);
        else if (i && bits[i - 1] == 1) given[i] = i == 1 ? area_len : i + 1 == n ? C13_MOST : 2 * C13_RECORD;
        else if (bits[i] != 64) given[i] = small;
    }
}

static void tried(uint32_t call, uint64_t down) {
    struct attempt a;
    uint64_t g[MOST];
    unsigned bits[MOST];
    size_t n = bits_of(call, bits);
    parameters(call, down / 16 % 2 ? 100 : 1, g); /* as a reading of end lines 1 is one, and 100 is none */
    lent = before;
    uint32_t status = codes[call](g[0], g[1], g[2], g[3], g[4], g[5], g[6], g[7], g[8], g[9], g[10], g[11]);
    first = lent, lent = before;
    a.down = down;
    for (size_t i = 0; i < MOST; i++) a.given[i] = i < n && bits[i] > 1 && bits[i] < 64 ? g[i] | UINT64_C(0xabababababababab) << bits[i] : g[i];
    called(call, &a);
    if ((uint32_t)a.answer != status) fail(call, down, "another status than without the thunk");
    if (memcmp(&first, &lent, sizeof lent)) fail(call, down, "other words than without the thunk");
}
#endif

int main(int argc, char **argv) {
    unsigned made = 0;
    if (argc != 2) return 2;
    prepare(argv[1]);
    for (uint32_t call = 0; call < CALLS; call++)
        for (uint64_t down = 0; down < PAGE; down += 16, made++) tried(call, down);
    printf("%u\n", made);
    return 0;
}
