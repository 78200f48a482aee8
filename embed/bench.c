// Times what calls.wasm does, which wasm2c turned into C: `bench ROUNDS`, with a line of JSON as that of node/bench.js. Of
// `direct` the calls are made from C, without a guest.
#include <stdio.h>
#include <stdlib.h>
#include <string.h>
#include <time.h>

#include "guest.h"
#include "zurgwenad/wasm2c.h"

#define SCRIPT "{\"nodes\": [{\"dir\": {}}], \"calls\": [], " \
               "\"preopens\": [{\"node\": 0, \"name\": \"/\", \"perms\": \"rw\"}]}"
#define WARM_UP 1000
#define FEWER 100  // of list_all so many times fewer rounds are made
#define PLACE 1024         // of a result, in the guest's memory

static Z_guest_instance_t guest;
static struct Z_wasi_snapshot_preview1_instance_t wasi;

static u32 tell_directly(Z_guest_instance_t *instance, u32 rounds) {
    u32 errors = 0;
    wasm_rt_memory_t *memory = Z_guestZ_memory(instance);
    for (u32 round = 0; round < rounds; round += 1) {
        errors += wasi_fd_tell(&wasi.sandbox, memory->data, memory->size, 4, PLACE);
    }
    return errors;
}

static const struct {
    const char *name;
    u32 (*run)(Z_guest_instance_t *instance, u32 rounds);
    u32 fewer;
} timed[] = {
    {"tell", Z_guestZ_tell, 1},
    {"read_16", Z_guestZ_read_16, 1},
    {"read_4096", Z_guestZ_read_4096, 1},
    {"write_16", Z_guestZ_write_16, 1},
    {"write_4096", Z_guestZ_write_4096, 1},
    {"open_1", Z_guestZ_open_1, 1},
    {"open_8", Z_guestZ_open_8, 1},
    {"stat_1", Z_guestZ_stat_1, 1},
    {"rename_there", Z_guestZ_rename_there, 1},
    {"list", Z_guestZ_list, 1},
    {"list_all", Z_guestZ_list_all, FEWER},
    {"direct", tell_directly, 1},
};

// The processor's nanoseconds up to now.
static double nanoseconds(void) {
    struct timespec now;
    clock_gettime(CLOCK_PROCESS_CPUTIME_ID, &now);
    return (double)now.tv_sec * 1e9 + (double)now.tv_nsec;
}

static void need(u32 errors, const char *what) {
    if (errors != 0) {
        fprintf(stderr, "bench: %s: errors %u\n", what, errors);
        exit(1);
    }
}

int main(int count, char **words) {
    u32 rounds = count > 1 ? (u32)atoi(words[1]) : 100000;
    need(wasi_start(&wasi.sandbox, (const uint8_t *)SCRIPT, strlen(SCRIPT)), "the script");
    wasm_rt_init();
    Z_guest_init_module();
    wasi.memory = Z_guestZ_memory(&guest);
    Z_guest_instantiate(&guest, &wasi);
    Z_guestZ__initialize(&guest);
    need(Z_guestZ_prepare(&guest), "prepare");
    for (size_t place = 0; place < sizeof timed / sizeof timed[0]; place += 1) {
        u32 made = rounds / timed[place].fewer;
        need(timed[place].run(&guest, WARM_UP / timed[place].fewer), timed[place].name);
        double begun = nanoseconds();
        need(timed[place].run(&guest, made), timed[place].name);
        printf("%s\"%s\": %.1f", place == 0 ? "{" : ", ", timed[place].name, (nanoseconds() - begun) / made);
    }
    printf("}\n");
    wasi_end(&wasi.sandbox);
    Z_guest_free(&guest);
    wasm_rt_free();
    return 0;
}
