// Counts what a program has from malloc and has not given back: for tests/memory.sh, which loads it before the C library. When the program
// ends, the most bytes that it had at once are written to the file that HEAP_PEAK names. A block that is moved counts twice meanwhile.
#include <fcntl.h>
#include <stddef.h>
#include <stdint.h>
#include <stdio.h>
#include <stdlib.h>
#include <string.h>
#include <unistd.h>

void *__libc_malloc(size_t size);
void __libc_free(void *block);

// Before each block stands its size, in as many bytes as keep the block aligned.
enum { HEAD = 16 };

static size_t now, most;

void *malloc(size_t size) {
    char *block = size > SIZE_MAX - HEAD ? NULL : __libc_malloc(size + HEAD);
    if (!block) return NULL;
    memcpy(block, &size, sizeof size);
    now += size;
    if (now > most) most = now;
    return block + HEAD;
}

static size_t size_of(void *bytes) {
    size_t size;
    memcpy(&size, (char *)bytes - HEAD, sizeof size);
    return size;
}

void free(void *bytes) {
    if (!bytes) return;
    now -= size_of(bytes);
    __libc_free((char *)bytes - HEAD);
}

void *calloc(size_t count, size_t size) {
    if (size && count > SIZE_MAX / size) return NULL;
    void *bytes = malloc(count * size);
    return bytes ? memset(bytes, 0, count * size) : NULL;
}

void *realloc(void *bytes, size_t size) {
    void *moved = malloc(size);
    if (!moved || !bytes) return moved;
    size_t old = size_of(bytes);
    memcpy(moved, bytes, old < size ? old : size);
    free(bytes);
    return moved;
}

// The programs want no memory that is aligned otherwise, and what were given here would not be counted.
void *aligned_alloc(size_t alignment, size_t size) {
    (void)alignment, (void)size;
    abort();
}

void *memalign(size_t alignment, size_t size) {
    return aligned_alloc(alignment, size);
}

int posix_memalign(void **bytes, size_t alignment, size_t size) {
    *bytes = aligned_alloc(alignment, size);
    return 0;
}

__attribute__((destructor)) static void write_peak(void) {
    const char *name = getenv("HEAP_PEAK");
    int file = name ? open(name, O_WRONLY | O_CREAT | O_TRUNC, 0600) : -1;
    char text[24];
    int length = snprintf(text, sizeof text, "%zu\n", most);
    if (file >= 0 && write(file, text, length) != length) abort();
}
