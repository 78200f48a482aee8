// Refuses one request for memory of a run after another, from the first to the last. The function that wanted it has to
// answer as a run does that is refused nothing; or it answers WASI_NO_MEMORY, and then it has to answer so asked again.
// Link it with -Wl,--wrap=malloc,--wrap=realloc.
#include <stdio.h>
#include <stdlib.h>
#include <string.h>

#include "zurgwenad/wasi.h"

enum { MEMORY = 1024, STEPS = 10 };

/// Which request from now on is refused: 1 is the next one, and 0 none.
static unsigned refused;

static int is_refused(void) {
    return refused != 0 && --refused == 0;
}

void *__real_malloc(size_t size);
void *__real_realloc(void *block, size_t size);

void *__wrap_malloc(size_t size) {
    return is_refused() ? NULL : __real_malloc(size);
}

void *__wrap_realloc(void *block, size_t size) {
    return is_refused() ? NULL : __real_realloc(block, size);
}

/// One step of the run, by its number.
static uint32_t step(wasi_sandbox *sandbox, uint8_t *memory, unsigned number, uint8_t *report, size_t room) {
    static const char SCRIPT[] =
        "{\"nodes\":[{\"dir\":{}}],\"preopens\":[{\"node\":0,\"name\":\"/\",\"perms\":\"rw\"}],\"calls\":[]}";
    size_t len;
    switch (number) {
    case 0:
        return wasi_start(sandbox, (const uint8_t *)SCRIPT, strlen(SCRIPT));
    case 1:
        return wasi_path_create_directory(sandbox, memory, MEMORY, 3, 64, 1);
    case 2:
        return wasi_path_open(sandbox, memory, MEMORY, 3, 0, 64, 3, 1, 66, 0, 0, 16);
    case 3:
    case 4:
        return wasi_fd_write(sandbox, memory, MEMORY, number == 3 ? 4 : 1, 0, 1, 24);
    case 5:
        return wasi_path_rename(sandbox, memory, MEMORY, 3, 64, 3, 3, 66, 1);
    case 6:
        return wasi_path_symlink(sandbox, memory, MEMORY, 64, 1, 3, 72, 4);
    case 7:
        return wasi_fd_readdir(sandbox, memory, MEMORY, 3, 256, 256, 0, 24);
    case 8:
        return wasi_entries(sandbox, 0, report, room, &len);
    default:
        return wasi_report(sandbox, report, room, &len);
    }
}

/// A run in which the request of this number is refused, or none for 0; whether there was such a request. `differed`
/// counts what isn't as it has to be.
static int run(unsigned number, uint8_t *report, size_t room, unsigned *differed) {
    static uint8_t memory[MEMORY];
    static const uint8_t BUFFER[8] = {128, 0, 0, 0, 5, 0, 0, 0};
    wasi_sandbox sandbox = {0};
    int met = 0;
    memset(memory, 0, MEMORY);
    memset(report, 0, room);
    memcpy(memory, BUFFER, 8);
    memcpy(memory + 64, "d/f", 3);
    memcpy(memory + 72, "link", 4);
    memcpy(memory + 128, "bytes", 5);
    refused = number;
    for (unsigned at = 0; at < STEPS; at++) {
        unsigned before = refused;
        uint32_t code = step(&sandbox, memory, at, report, room);
        if (before != 0 && refused == 0) {
            met = 1;
            if (code == WASI_NO_MEMORY) {
                code = step(&sandbox, memory, at, report, room);
            }
        }
        *differed += code != 0;
    }
    wasi_end(&sandbox);
    refused = 0;
    return met;
}

int main(void) {
    static uint8_t report[4096], wanted[4096];
    unsigned differed = 0, requests = 0;
    run(0, wanted, sizeof wanted, &differed);
    while (run(requests + 1, report, sizeof report, &differed)) {
        requests++;
        differed += memcmp(wanted, report, sizeof report) != 0;
    }
    puts(requests != 0 && differed == 0 ? "all agree" : "some differ");
    return differed != 0;
}
