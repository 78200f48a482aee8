// Reads what a guest's run left, without the report: its tree from the root on, file by file, and its outputs. The same
// run is read over a tree of its own and over a base, and has to read alike.
#include <inttypes.h>
#include <stdio.h>
#include <stdlib.h>
#include <string.h>

#include "zurgwenad/names.h"
#include "zurgwenad/wasi.h"

enum { MEMORY = 256, PIECE = 4, TEXT = 64, BUFFER = 16, ANSWER = 8, CREAT = 1, RIGHT_WRITE = 64 };

#define NODES "[{\"dir\":{\"old\":1,\"way\":2,\"gone\":3}},{\"file\":\"6f6c6465722062797465732e\"},{\"link\":\"old\"},{\"dir\":{}}]"
#define SCRIPT(nodes) "{\"nodes\":" nodes ",\"preopens\":[{\"node\":0,\"name\":\"/\",\"perms\":\"rw\"}],\"calls\":[]}"
#define HAS_NO_NODE 99  // a number of no node

static uint8_t memory[MEMORY];

static void *room_for(size_t size) {
    void *room = malloc(size > 0 ? size : 1);
    if (!room) {
        exit(EXIT_FAILURE);
    }
    return room;
}

/// Puts a text into the guest's memory, and a buffer that names it: how long it is.
static uint32_t put(const char *text) {
    uint32_t len = (uint32_t)strlen(text);
    memcpy(memory + TEXT, text, len);
    memory[BUFFER] = TEXT;
    memory[BUFFER + 4] = (uint8_t)len;
    return len;
}

/// What the guest does: a directory and a file in it, a file that is changed, a directory that is removed, and outputs.
static uint32_t run(wasi_sandbox *sandbox) {
    uint32_t failed = wasi_path_remove_directory(sandbox, memory, MEMORY, 3, TEXT, put("gone"));
    failed |= wasi_path_create_directory(sandbox, memory, MEMORY, 3, TEXT, put("made"));
    failed |= wasi_path_open(sandbox, memory, MEMORY, 3, 0, TEXT, put("made/new"), CREAT, RIGHT_WRITE, 0, 0, ANSWER);
    put("by the guest");
    failed |= wasi_fd_write(sandbox, memory, MEMORY, 4, BUFFER, 1, ANSWER);
    failed |= wasi_path_open(sandbox, memory, MEMORY, 3, 0, TEXT, put("old"), 0, RIGHT_WRITE, 0, 0, ANSWER);
    put("NEWER");
    failed |= wasi_fd_write(sandbox, memory, MEMORY, 5, BUFFER, 1, ANSWER);
    failed |= wasi_fd_filestat_set_times(sandbox, memory, MEMORY, 5, 0, UINT64_C(7000000009), 4);
    failed |= wasi_fd_write(sandbox, memory, MEMORY, 1, BUFFER, 1, ANSWER);
    put("and an error");
    return failed | wasi_fd_write(sandbox, memory, MEMORY, 2, BUFFER, 1, ANSWER);
}

/// All bytes of a node, in pieces.
static void tell_bytes(wasi_sandbox *sandbox, uint64_t number) {
    uint8_t piece[PIECE];
    size_t len = 0;
    uint64_t from = 0;
    do {
        if (wasi_read(sandbox, number, from, piece, PIECE, &len) != 0) {
            exit(EXIT_FAILURE);
        }
        printf("%.*s", (int)len, (const char *)piece);
        from += len;
    } while (len > 0);
    printf("\n");
}

static void tell_node(wasi_sandbox *sandbox, uint64_t number, const char *path);

static uint64_t number_at(const uint8_t *at) {
    uint64_t number = 0;
    for (int i = 8; i-- > 0;) {
        number = number << 8 | at[i];
    }
    return number;
}

/// All names of a directory, each with what it holds.
static void tell_names(wasi_sandbox *sandbox, uint64_t directory, const char *path) {
    uint8_t none;
    size_t len = 0;
    uint32_t code = wasi_entries(sandbox, directory, &none, 0, &len);
    uint8_t *listing = room_for(len);
    if (code != (len == 0 ? 0 : WASI_SHORT) || wasi_entries(sandbox, directory, listing, len, &len) != 0) {
        exit(EXIT_FAILURE);
    }
    for (size_t at = 0; at < len; at += 9 + strlen((const char *)listing + at + 8)) {
        const char *name = (const char *)listing + at + 8;
        char *below = room_for(strlen(path) + strlen(name) + 2);
        sprintf(below, "%s/%s", path, name);
        tell_node(sandbox, number_at(listing + at), below);
        free(below);
    }
    free(listing);
}

static void tell_node(wasi_sandbox *sandbox, uint64_t number, const char *path) {
    wasi_node_record node;
    if (wasi_node(sandbox, number, &node) != 0) {
        exit(EXIT_FAILURE);
    }
    printf("%" PRIu64 " %s: type %" PRIu32 ", %" PRIu64 " bytes, %" PRIu64 " names, changed at %" PRId64 ".%09" PRIu32 "\n",
           number, path, node.filetype, node.size, node.links, node.mtime.seconds, node.mtime.nanoseconds);
    if (node.filetype == WASI_FILETYPE_DIRECTORY) {
        tell_names(sandbox, number, path);
    } else {
        tell_bytes(sandbox, number);
    }
}

static void tell_output(wasi_sandbox *sandbox, bool error) {
    uint8_t none;
    size_t len = 0;
    uint64_t total = 0;
    wasi_output(sandbox, error, 0, &none, 0, &len, &total);
    uint8_t *bytes = room_for((size_t)total);
    wasi_output(sandbox, error, 0, bytes, (size_t)total, &len, &total);
    printf("%s: %.*s\n", error ? "error" : "output", (int)len, (const char *)bytes);
    wasi_output(sandbox, error, 2, bytes, 3, &len, &total);
    printf("from 2 on: %.*s, of %" PRIu64 "\n", (int)len, (const char *)bytes, total);
    free(bytes);
}

static uint32_t find(wasi_sandbox *sandbox, uint64_t directory, const char *name, uint64_t *number) {
    return wasi_entry(sandbox, directory, (const uint8_t *)name, strlen(name), number);
}

/// What isn't there, and what has no bytes; nothing is written then.
static void tell_refusals(wasi_sandbox *sandbox) {
    uint8_t bytes[2] = {'?', '?'};
    size_t len = 7;
    uint64_t number = 7;
    wasi_node_record node = {0};
    node.links = 7;
    printf("no node: %" PRIu32 "\n", wasi_node(sandbox, HAS_NO_NODE, &node));
    printf("no bytes: %" PRIu32 "\n", wasi_read(sandbox, HAS_NO_NODE, 0, bytes, 2, &len));
    printf("a directory's bytes: %" PRIu32 "\n", wasi_read(sandbox, 0, 0, bytes, 2, &len));
    printf("no name: %" PRIu32 "\n", find(sandbox, 0, "gone", &number));
    printf("a name of a file: %" PRIu32 "\n", find(sandbox, 1, "old", &number));
    printf("a name that is no text: %" PRIu32 "\n", find(sandbox, 0, "\xff", &number));
    printf("nothing is written: %d\n", node.links == 7 && len == 7 && number == 7 && bytes[0] == '?');
    printf("a listing of a file: %" PRIu32, wasi_entries(sandbox, 1, bytes, 2, &len));
    printf(", of %zu bytes\n", len);
    printf("a short listing: %" PRIu32, wasi_entries(sandbox, 0, bytes, 2, &len));
    printf(", of %zu bytes, and %d\n", len, bytes[0] == '?');
    printf("past the end: %" PRIu32, wasi_read(sandbox, 1, UINT64_MAX, bytes, 2, &len));
    printf(", of %zu bytes\n", len);
    if (wasi_node(sandbox, 3, &node) == 0) {
        printf("the directory without a name is removed: %" PRIu32 "\n", node.removed);
    }
    if (find(sandbox, 0, "made", &number) == 0 && find(sandbox, number, "new", &number) == 0) {
        printf("made/new is %" PRIu64 "\n", number);
    }
}

/// The report of a sandbox, which stays until the end of the program.
static char *report_of(wasi_sandbox *sandbox) {
    uint8_t none;
    size_t len = 0;
    wasi_report(sandbox, &none, 0, &len);
    char *report = room_for(len + 1);
    wasi_report(sandbox, (uint8_t *)report, len, &len);
    report[len] = 0;
    return report;
}

static void tell(const char *name, wasi_sandbox *sandbox) {
    printf("-- %s\n", name);
    printf("the guest's calls: %" PRIu32 "\n", run(sandbox));
    char *before = report_of(sandbox);
    tell_node(sandbox, 0, "");
    tell_output(sandbox, false);
    tell_output(sandbox, true);
    tell_refusals(sandbox);
    char *after = report_of(sandbox);
    printf("the report stays: %d\n", strcmp(before, after) == 0);
    free(before);
    free(after);
    wasi_end(sandbox);
    wasi_node_record node;
    printf("an ended one: %" PRIu32 "\n", wasi_node(sandbox, 0, &node));
}

int main(void) {
    static const char OWN[] = SCRIPT(NODES), OVER[] = SCRIPT("[]");
    static wasi_base base;
    wasi_sandbox alone = {0}, over = {0};
    if (wasi_start(&alone, (const uint8_t *)OWN, strlen(OWN)) != 0 || wasi_commit(&alone, &base) != 0 ||
        wasi_start_over(base, &over, (const uint8_t *)OVER, strlen(OVER)) != 0) {
        return EXIT_FAILURE;
    }
    tell("over a tree of its own", &alone);
    tell("over a base", &over);
    return EXIT_SUCCESS;
}
