/* on_windows.h: what the programs of tests/c need on Windows, put before them by the compiler (-include), so that they stay as they are. Memory comes from
 * VirtualAlloc under the names of POSIX, and what is printed is bytes, as on Linux: no carriage return before the end of a line. With FREESTANDING there is
 * no C library for the compiler: the functions are those of ucrtbase.dll, declared here, and the program begins here. */
#include <stdarg.h>
#include <stddef.h>
#include <stdint.h>

#ifdef __cplusplus
extern "C" {
#endif

void *VirtualAlloc(void *at, size_t size, unsigned long kind, unsigned long access);
int VirtualProtect(void *at, size_t size, unsigned long access, unsigned long *before);
int _setmode(int file, int mode);
enum { RESERVED_AND_COMMITTED = 0x3000, NO_ACCESS = 1, READ_WRITE = 4, BYTES = 0x8000 };

/* ---- of sys/mman.h: pages that can be read and written, or nothing */

enum { PROT_NONE = 0, PROT_READ = 1, PROT_WRITE = 2, MAP_PRIVATE = 2, MAP_ANONYMOUS = 32 };
#define MAP_FAILED NULL
static inline void *mmap(void *at, size_t size, int access, int kind, int file, long from) {
    return access == (PROT_READ | PROT_WRITE) && kind == (MAP_PRIVATE | MAP_ANONYMOUS) && file == -1 && from == 0
               ? VirtualAlloc(at, size, RESERVED_AND_COMMITTED, READ_WRITE)
               : MAP_FAILED;
}
static inline int mprotect(void *at, size_t size, int access) {
    unsigned long before;
    return access == PROT_NONE && VirtualProtect(at, size, NO_ACCESS, &before) ? 0 : -1;
}

#ifndef FREESTANDING
__attribute__((constructor)) static void print_bytes(void) { _setmode(1, BYTES); }
#else

/* ---- of stdio.h, stdlib.h and string.h, by ucrtbase.dll */

typedef struct file FILE;
FILE *__acrt_iob_func(unsigned number);
int __stdio_common_vfprintf(unsigned long long options, FILE *file, const char *form, void *locale, va_list values);
FILE *fopen(const char *path, const char *mode);
size_t fread(void *to, size_t size, size_t count, FILE *file);
int fclose(FILE *file);
__attribute__((noreturn)) void exit(int status);
void *malloc(size_t size);
void *calloc(size_t count, size_t size);
void free(void *at);
void *memcpy(void *to, const void *from, size_t n);
void *memset(void *to, int byte, size_t n);
int memcmp(const void *a, const void *b, size_t n);
int strcmp(const char *a, const char *b);
size_t strlen(const char *text);
static inline int printf(const char *form, ...) {
    va_list values;
    va_start(values, form);
    int n = __stdio_common_vfprintf(1, __acrt_iob_func(1), form, NULL, values);
    va_end(values);
    return n;
}

int _configure_narrow_argv(int mode);
int *__p___argc(void);
char ***__p___argv(void);
int program(int argc, char **argv);
void begin(void) {
    if (_configure_narrow_argv(1)) exit(3);
    _setmode(1, BYTES);
    exit(program(*__p___argc(), *__p___argv()));
}
#define main program
#endif

#ifdef __cplusplus
}
#endif
