/* Refuses one allocation of a program: the one with the number in REFUSED. Where it is refused, the file named in REFUSED_LOG gets
   the addresses within the program's code that stand on the stack, as offsets in hexadecimal, a line each. */
#define _GNU_SOURCE
#include <fcntl.h>
#include <link.h>
#include <stdatomic.h>
#include <stdint.h>
#include <stdio.h>
#include <stdlib.h>
#include <unistd.h>

#define WORDS 2048 /* of the stack that are looked at */

extern void *__libc_malloc(size_t);
extern void *__libc_realloc(void *, size_t);

static atomic_ulong made;
static unsigned long refused;

__attribute__((constructor)) static void begin(void) {
    const char *number = getenv("REFUSED");
    made = 0;
    refused = number ? strtoul(number, NULL, 10) : 0;
}

struct code { uintptr_t base, from, to; };

/* The program's code is the first object's segment that may run. */
static int find(struct dl_phdr_info *info, size_t size, void *found) {
    struct code *code = found;
    (void)size;
    for (int i = 0; i < info->dlpi_phnum; i++) {
        const ElfW(Phdr) *p = &info->dlpi_phdr[i];
        if (p->p_type == PT_LOAD && (p->p_flags & PF_X)) {
            code->base = info->dlpi_addr;
            code->from = info->dlpi_addr + p->p_vaddr;
            code->to = code->from + p->p_memsz;
        }
    }
    return 1;
}

__attribute__((noinline)) static void tell(void) {
    struct code code = {0, 0, 0};
    const char *path = getenv("REFUSED_LOG");
    uintptr_t here;
    volatile uintptr_t *stack = &here;
    int log = path ? open(path, O_WRONLY | O_CREAT | O_APPEND, 0600) : -1;
    if (log < 0) return;
    dl_iterate_phdr(find, &code);
    uintptr_t top = (uintptr_t)__builtin_frame_address(0);
    for (int i = 0; i < WORDS; i++) {
        /* a page of the stack that isn't there ends the look */
        if (((top + i * sizeof here) & 4095) == 0) {
            unsigned char there;
            extern int mincore(void *, size_t, unsigned char *);
            if (mincore((void *)(top + i * sizeof here), 4096, &there) != 0) break;
        }
        here = *(uintptr_t *)(top + i * sizeof here);
        if (code.from <= here && here < code.to) dprintf(log, "%lx\n", (unsigned long)(*stack - code.base));
    }
    close(log);
}

static int is_refused(void) {
    if (refused == 0 || atomic_fetch_add(&made, 1) + 1 != refused) return 0;
    tell();
    return 1;
}

void *malloc(size_t size) { return is_refused() ? NULL : __libc_malloc(size); }

void *realloc(void *old, size_t size) { return is_refused() ? NULL : __libc_realloc(old, size); }
