// Tests of wasi.h from C: empty sandboxes, refused scripts, reports, two sandboxes, and each call with stray numbers on
// memories of many lengths, none of which may touch a byte beyond its memory. embed/check builds and runs it.
#include <stdio.h>
#include <stdlib.h>
#include <string.h>

#include "zurgwenad/calls.h"
#include "zurgwenad/names.h"

#define SCRIPT "{\"nodes\": [{\"dir\": {\"f\": 1}}, {\"file\": \"746f70\"}], " \
               "\"preopens\": [{\"node\": 0, \"name\": \"/\", \"perms\": \"rw\"}], \"calls\": [], \"random\": \"5a\"}"
// The same with a quota of one making and of nine grown bytes.
#define QUOTA "{\"nodes\": [{\"dir\": {\"f\": 1}}, {\"file\": \"746f70\"}], " \
              "\"preopens\": [{\"node\": 0, \"name\": \"/\", \"perms\": \"rw\"}], \"calls\": [], " \
              "\"quota\": {\"nodes\": 1, \"bytes\": 9}}"
#define PAGE 65536
#define ROUNDS 20000

static int failures;

static void need(int is_so, const char *what) {
    if (!is_so) {
        fprintf(stderr, "check: %s\n", what);
        failures += 1;
    }
}

static uint32_t start(wasi_sandbox *sandbox, const char *script) {
    return wasi_start(sandbox, (const uint8_t *)script, strlen(script));
}

static void of_the_empty_one(void) {
    wasi_sandbox sandbox = {0};
    uint64_t words[MOST_ARGUMENTS] = {0};
    uint8_t memory[64] = {0};
    size_t length;
    for (size_t place = 0; place < CALL_COUNT; place += 1) {
        uint32_t code = wasi_call(&sandbox, memory, sizeof memory, (uint32_t)place, words, MOST_ARGUMENTS);
        need(code == WASI_EMPTY, calls[place].name);
    }
    need(wasi_answered(&sandbox) == 0, "answered of the empty one");
    uint64_t used = 7;
    need(wasi_quota_used(&sandbox, &used, &used) == WASI_EMPTY && used == 7, "the quotas of the empty one");
    need(wasi_report(&sandbox, memory, sizeof memory, &length) == WASI_EMPTY, "report of the empty one");
    wasi_end(&sandbox);
    need(sandbox.at == NULL, "the empty one stays");
}

static void of_starts(void) {
    const struct {
        const char *script;
        uint32_t code;
    } refused[] = {
        {"{", WASI_REFUSED_JSON},
        {"{}", WASI_REFUSED_SHAPE},
        {"{\"nodes\": [{\"file\": \"\"}], \"preopens\": [], \"calls\": []}", WASI_REFUSED_TREE},
        {"{\"nodes\": [{\"dir\": {}}], \"calls\": [], "
         "\"preopens\": [{\"node\": 1, \"name\": \"\", \"perms\": \"ro\"}]}",
         WASI_REFUSED_LIMIT},
        {"{\"nodes\": [{\"dir\": {}}], \"preopens\": [], \"calls\": [[\"sched_yield\"]]}", WASI_REFUSED_GUEST},
    };
    wasi_sandbox sandbox = {0};
    for (size_t place = 0; place < sizeof refused / sizeof refused[0]; place += 1) {
        need(start(&sandbox, refused[place].script) == refused[place].code, refused[place].script);
        need(sandbox.at == NULL, "a refused script leaves the sandbox empty");
    }
    need(start(&sandbox, SCRIPT) == 0, "a start");
    need(start(&sandbox, SCRIPT) == WASI_FULL, "a start of a full one");
    wasi_end(&sandbox);
    need(sandbox.at == NULL && start(&sandbox, SCRIPT) == 0, "a start after an end");
    wasi_end(&sandbox);
}

static void of_reports(void) {
    wasi_sandbox sandbox = {0};
    size_t length = 0, told = 0;
    uint8_t none;
    start(&sandbox, SCRIPT);
    need(wasi_report(&sandbox, &none, 0, &length) == WASI_SHORT && length > 0, "the length alone");
    uint8_t *text = malloc(length + 1);
    text[length - 1] = '?';
    need(wasi_report(&sandbox, text, length - 1, &told) == WASI_SHORT && told == length, "a byte too little");
    need(text[length - 1] == '?', "nothing beyond the room");
    text[length] = '?';
    need(wasi_report(&sandbox, text, length + 1, &told) == 0 && told == length, "room enough");
    need(text[0] == '{' && text[length] == '?', "the text in front");
    free(text);
    wasi_end(&sandbox);
}

static uint32_t open_path(wasi_sandbox *sandbox, uint8_t *memory, const char *path, uint32_t flags) {
    memcpy(memory + 64, path, strlen(path));
    return wasi_path_open(sandbox, memory, PAGE, 3, 0, 64, (uint32_t)strlen(path), flags, 2, 0, 0, 16);
}

// What the position of a file is answered where its result goes to an address of a memory of so many bytes.
static uint32_t told_at(uint8_t *memory, size_t length, uint32_t at) {
    wasi_sandbox sandbox = {0};
    start(&sandbox, SCRIPT);
    need(open_path(&sandbox, memory, "f", 0) == 0 && memory[16] == 4, "a descriptor");
    uint32_t code = wasi_fd_tell(&sandbox, memory, length, 4, at);
    need(wasi_answered(&sandbox) == 1 + (code == 0), "a call with no place for its result isn't made");
    need((wasi_fd_close(&sandbox, memory, PAGE, 77) == WASI_ERRNO_BADF) == (code == 0), "after a trap no call is made");
    wasi_end(&sandbox);
    return code;
}

static void of_results(void) {
    wasi_sandbox sandbox = {0};
    uint8_t *memory = calloc(1, PAGE);
    need(told_at(memory, PAGE, 12) == WASI_TRAP_POINTER, "an address that isn't aligned");
    need(told_at(memory, PAGE, PAGE) == WASI_TRAP_POINTER, "an address behind the memory");
    need(told_at(memory, PAGE, PAGE - 8) == 0, "the last address");
    need(told_at(memory, 8, 8) == WASI_TRAP_POINTER, "a shorter memory");
    start(&sandbox, SCRIPT);
    need(wasi_fd_close(&sandbox, memory, PAGE, 77) == WASI_ERRNO_BADF, "an error number");
    need(open_path(&sandbox, memory, "f", 0) == 0 && memory[16] == 4, "a descriptor");
    need(wasi_fd_seek(&sandbox, memory, PAGE, 4, -1, 2, 24) == 0 && memory[24] == 2, "an offset below 0");
    need(wasi_proc_exit(&sandbox, memory, PAGE, 125) == WASI_EXIT, "an exit");
    need(wasi_sched_yield(&sandbox, memory, PAGE) == WASI_EXIT, "a call after it");
    need(wasi_answered(&sandbox) == 4, "how many were answered");
    wasi_end(&sandbox);
    start(&sandbox, SCRIPT);
    need(wasi_proc_exit(&sandbox, memory, PAGE, 126) == WASI_TRAP_EXIT, "a status that traps");
    need(wasi_proc_exit(&sandbox, memory, PAGE, 3) == WASI_TRAP_EXIT, "an exit after it");
    wasi_end(&sandbox);
    free(memory);
}

static void of_texts(void) {
    need(strcmp(wasi_code_text(WASI_ERRNO_NOENT), "noent: there is nothing of this name") == 0, "of an error number");
    need(strcmp(wasi_code_text(WASI_TRAP_EXIT), "the guest ended with a status of 126 or more") == 0, "of a trap");
    need(strcmp(wasi_code_text(255), "no answer has this number") == 0, "of no answer");
}

// A number of no call, and each call with a word too few, with just enough, and with words behind that count nothing.
static void of_numbers(void) {
    wasi_sandbox sandbox = {0};
    uint64_t words[MOST_ARGUMENTS] = {0};
    uint8_t *memory = calloc(1, PAGE);
    start(&sandbox, SCRIPT);
    need(wasi_call(&sandbox, memory, PAGE, CALL_COUNT, words, MOST_ARGUMENTS) == WASI_NO_CALL, "a number of no call");
    need(wasi_call(&sandbox, memory, PAGE, 0xffffffffu, words, MOST_ARGUMENTS) == WASI_NO_CALL, "the last number");
    for (uint32_t number = 0; number < CALL_COUNT; number += 1) {
        size_t wanted = strlen(calls[number].kinds);
        need(wanted == 0 || wasi_call(&sandbox, memory, PAGE, number, words, wanted - 1) == WASI_NO_CALL,
             calls[number].name);
    }
    need(wasi_answered(&sandbox) == 0, "none of these was answered");
    for (uint32_t number = 0; number < CALL_COUNT; number += 1) {
        wasi_sandbox other = {0};
        start(&other, SCRIPT);
        uint32_t code = wasi_call(&other, memory, PAGE, number, words, strlen(calls[number].kinds));
        need(code == WASI_EXIT || code < WASI_TRAP_POINTER, calls[number].name);
        need(wasi_answered(&other) == 1, "it was answered");
        wasi_end(&other);
    }
    const uint64_t more[] = {((uint64_t)7 << 32) + 77, 1, 2, 3, 4, 5, 6, 7, 8, 9, 10};
    need(wasi_call(&sandbox, memory, PAGE, 8, more, 11) == WASI_ERRNO_BADF, "the words behind the last");
    wasi_end(&sandbox);
    free(memory);
}

static void of_two(void) {
    wasi_sandbox first = {0}, second = {0};
    uint8_t *memory = calloc(1, PAGE);
    start(&first, SCRIPT);
    start(&second, SCRIPT);
    need(open_path(&first, memory, "new", 1) == 0, "a file in the first");
    need(open_path(&second, memory, "new", 0) == WASI_ERRNO_NOENT, "none in the second");
    need(wasi_fd_close(&second, memory, PAGE, 4) == WASI_ERRNO_BADF, "no descriptor in the second");
    wasi_end(&first);
    need(open_path(&second, memory, "f", 0) == 0, "the second goes on");
    wasi_end(&second);
    free(memory);
}

static int has_used(wasi_sandbox *sandbox, uint64_t nodes, uint64_t bytes) {
    uint64_t used[2] = {7, 7};
    return wasi_quota_used(sandbox, &used[0], &used[1]) == 0 && used[0] == nodes && used[1] == bytes;
}

static void of_quotas(void) {
    wasi_sandbox sandbox = {0};
    uint8_t *memory = calloc(1, PAGE);
    start(&sandbox, QUOTA);
    need(has_used(&sandbox, 0, 0), "nothing is used");
    need(open_path(&sandbox, memory, "f", 1) == 0 && has_used(&sandbox, 1, 0), "an open that creates");
    need(wasi_fd_filestat_set_size(&sandbox, memory, PAGE, 4, 7) == 0 && has_used(&sandbox, 1, 4), "a larger size");
    need(wasi_fd_filestat_set_size(&sandbox, memory, PAGE, 4, 0) == 0 && has_used(&sandbox, 1, 4), "a smaller one");
    need(wasi_fd_filestat_set_size(&sandbox, memory, PAGE, 4, 6) == WASI_ERRNO_DQUOT && has_used(&sandbox, 1, 4), "grown bytes");
    need(open_path(&sandbox, memory, "f", 1) == WASI_ERRNO_DQUOT && has_used(&sandbox, 1, 4), "makings");
    wasi_end(&sandbox);
    start(&sandbox, SCRIPT);
    need(open_path(&sandbox, memory, "g", 1) == 0 && has_used(&sandbox, 0, 0), "no bound, and no count");
    wasi_end(&sandbox);
    free(memory);
}

static uint32_t state = 1;

static uint32_t dice(void) {
    state = state * 1664525u + 1013904223u;
    return state >> 8;
}

// A number as a stray guest may hand it over: small, near the memory's end, or any.
static uint64_t stray(size_t length) {
    switch (dice() % 5) {
        case 0: return dice() % 8;
        case 1: return dice() % 64 * 8;
        case 2: return length - dice() % 16;
        case 3: return 0xffffffffu - dice() % 16;
        default: return (uint64_t)dice() << 40 | dice();
    }
}

// The memory is a block of its own length, so that valgrind sees what is read or written beyond it.
static void of_stray_calls(void) {
    wasi_sandbox sandbox = {0};
    uint32_t codes = 0;
    start(&sandbox, SCRIPT);
    for (uint32_t round = 0; round < ROUNDS; round += 1) {
        size_t length = dice() % 3 == 0 ? dice() % 16 : dice() % 4096;
        uint8_t *memory = malloc(length + (length == 0));
        for (size_t place = 0; place < length; place += 1) {
            memory[place] = dice() % 2 ? (uint8_t)dice() : 0;
        }
        uint64_t words[MOST_ARGUMENTS];
        for (size_t place = 0; place < MOST_ARGUMENTS; place += 1) {
            words[place] = stray(length);
        }
        uint32_t number = dice() % CALL_COUNT;
        uint32_t code = wasi_call(&sandbox, memory, length, number, words, MOST_ARGUMENTS);
        need(code <= 76 || (code >= WASI_TRAP_POINTER && code <= WASI_NO_MEMORY), calls[number].name);
        codes += code == WASI_TRAP_POINTER;
        free(memory);
        if (wasi_ends_guest(code)) {
            wasi_end(&sandbox);
            start(&sandbox, SCRIPT);
        }
    }
    need(codes > ROUNDS / 50, "some of the stray calls trap");
    wasi_end(&sandbox);
}

int main(void) {
    of_the_empty_one();
    of_starts();
    of_reports();
    of_results();
    of_texts();
    of_numbers();
    of_two();
    of_quotas();
    of_stray_calls();
    printf("check: %d failures\n", failures);
    return failures != 0;
}
