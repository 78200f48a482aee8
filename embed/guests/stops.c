/* A guest that ends in the way that its first word names, and before that asks for what is refused. */

#include <stdio.h>
#include <stdlib.h>
#include <string.h>
#include <wasi/api.h>

#define FAR 0xfffffff8u /* an address beyond each memory of less than 4 GiB */

/* The calls as they are imported, which take an address that C has no object at. */
#define IMPORT(NAME) __attribute__((import_module("wasi_snapshot_preview1"), import_name(#NAME)))
int32_t tell_at(int32_t fd, uint32_t to) IMPORT(fd_tell);
int32_t random_at(uint32_t to, uint32_t length) IMPORT(random_get);

static int grow(void) {
    size_t size = 64 << 20;
    char *room = malloc(size);
    if (room == NULL) return 1;
    memset(room, 'g', size);
    printf("grown\n");
    fflush(stdout);
    if (random_at((uint32_t)(uintptr_t)(room + size - 16), 16) != 0) return 1;
    for (size_t place = size - 16; place < size; place += 1) {
        if (room[place] != 0) return 0;
    }
    return 2; /* random bytes that are all zeros: the script has none */
}

int main(int count, char **words) {
    const char *way = count > 1 ? words[1] : "return";
    printf("closing 77: %d\n", __wasi_fd_close(77));
    fflush(stdout);
    if (strcmp(way, "unaligned") == 0) return tell_at(3, 65);
    if (strcmp(way, "far") == 0) return tell_at(3, FAR);
    if (strcmp(way, "long") == 0) return random_at(FAR, 64);
    if (strcmp(way, "status") == 0) __wasi_proc_exit(126);
    if (strcmp(way, "exit") == 0) __wasi_proc_exit(7);
    if (strcmp(way, "unreachable") == 0) __builtin_trap();
    if (strcmp(way, "grow") == 0) return grow();
    return 0;
}
