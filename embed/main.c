// A guest that wasm2c turned into C, as a program over a sandbox: it is begun by a script, and its report is written.
//
//     wasm2c --module-name guest GUEST.wasm -o guest.c
//     main SCRIPT REPORT
//
// The status is the guest's; 134 where it was stopped by a trap, and 1 where it couldn't be run.
#include <stdio.h>
#include <stdlib.h>

#include "guest.h"
#include "wasm-rt-impl.h"
#include "zurgwenad/wasm2c.h"

#define STOPPED 134

static int fail(const char *what, const char *path) {
    fprintf(stderr, "main: %s %s\n", what, path);
    return 1;
}

// The bytes of a file; where there are none, null.
static uint8_t *read_all(const char *path, size_t *length) {
    FILE *file = fopen(path, "rb");
    if (!file || fseek(file, 0, SEEK_END) != 0) {
        return NULL;
    }
    long size = ftell(file);
    rewind(file);
    uint8_t *bytes = size > 0 ? malloc((size_t)size) : NULL;
    *length = bytes ? fread(bytes, 1, (size_t)size, file) : 0;
    fclose(file);
    return bytes;
}

static int write_report(wasi_sandbox *sandbox, const char *path) {
    size_t room = 0;
    uint8_t none;
    uint32_t code = wasi_report(sandbox, &none, 0, &room);
    uint8_t *report = code == WASI_SHORT ? malloc(room) : NULL;
    FILE *file = fopen(path, "wb");
    int written = report && file && wasi_report(sandbox, report, room, &room) == 0 &&
                  fwrite(report, 1, room, file) == room;
    if (file) {
        written = fclose(file) == 0 && written;
    }
    free(report);
    return written ? 0 : fail("can't write", path);
}

// Runs the guest to its end, and gives its status.
static int run(struct Z_wasi_snapshot_preview1_instance_t *wasi, Z_guest_instance_t *guest) {
    wasm_rt_trap_t trap = wasm_rt_impl_try();
    if (trap == WASM_RT_TRAP_NONE) {
        wasi->memory = Z_guestZ_memory(guest);
        Z_guest_instantiate(guest, wasi);
        Z_guestZ__start(guest);
        return 0;
    }
    if (wasi->ended == WASI_EXIT) {
        return (int)wasi->status;
    }
    if (wasi->ended) {
        fprintf(stderr, "main: the guest was stopped: code %u\n", wasi->ended);
    } else {
        fprintf(stderr, "main: the guest was stopped: %s\n", wasm_rt_strerror(trap));
    }
    return STOPPED;
}

int main(int count, char **words) {
    if (count != 3) {
        return fail("usage:", "main SCRIPT REPORT");
    }
    size_t length;
    uint8_t *script = read_all(words[1], &length);
    if (!script) {
        return fail("can't read", words[1]);
    }
    struct Z_wasi_snapshot_preview1_instance_t wasi = {0};
    uint32_t code = wasi_start(&wasi.sandbox, script, length);
    free(script);
    if (code != 0) {
        fprintf(stderr, "main: the script is refused: code %u\n", code);
        return 1;
    }

    wasm_rt_init();
    Z_guest_init_module();
    Z_guest_instance_t guest = {0};
    int status = run(&wasi, &guest);
    int failed = write_report(&wasi.sandbox, words[2]);
    wasi_end(&wasi.sandbox);
    Z_guest_free(&guest);
    wasm_rt_free();
    return failed ? failed : status;
}
