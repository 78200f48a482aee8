// Two sandboxes over one base, as a host of plugins has them: one is committed, and the other is dropped. It writes a line for
// what each of them finds.
#include <stdio.h>
#include <stdlib.h>
#include <string.h>

#include "zurgwenad/wasi.h"

enum { MEMORY = 1024, BUFFER = 0, ANSWER = 16, PATH = 64, TEXT = 128, ROOM = 512, NUMBERS = 16 };

enum { RIGHT_READ = 2, RIGHT_WRITE = 64, CREAT = 1 };

static const char BASE[] = "{\"nodes\":[{\"dir\":{\"shared\":1}},{\"dir\":{\"motd\":2}},{\"file\":\"6f6c64\"}],"
                           "\"preopens\":[],\"calls\":[]}";

static const char OVER[] = "{\"nodes\":[],\"preopens\":[{\"node\":1,\"name\":\"/shared\",\"perms\":\"rw\"}],"
                           "\"args\":[\"plugin\"],\"quota\":{\"nodes\":8,\"bytes\":64},\"calls\":[]}";

/// A plugin: its sandbox, and its memory, which its engine owns.
struct plugin {
    const char *name;
    wasi_sandbox sandbox;
    uint8_t memory[MEMORY];
};

static void put(struct plugin *plugin, uint32_t at, uint32_t n) {
    for (unsigned i = 0; i < 4; i++) {
        plugin->memory[at + i] = n >> 8 * i & 255;
    }
}

static uint32_t get(const struct plugin *plugin, uint32_t at) {
    uint32_t n = 0;
    for (unsigned i = 4; i-- > 0;) {
        n = n << 8 | plugin->memory[at + i];
    }
    return n;
}

static uint32_t start_over(struct plugin *plugin, wasi_base base, const char *script) {
    return wasi_start_over(base, &plugin->sandbox, (const uint8_t *)script, strlen(script));
}

/// Opens a file below the shared directory, and gives its descriptor, or 0.
static uint32_t open_file(struct plugin *plugin, const char *path, uint32_t oflags, uint64_t rights) {
    memcpy(plugin->memory + PATH, path, strlen(path));
    uint32_t code = wasi_path_open(&plugin->sandbox, plugin->memory, MEMORY, 3, 0, PATH, strlen(path), oflags, rights, 0,
                                   0, ANSWER);
    return code == 0 ? get(plugin, ANSWER) : 0;
}

static void put_file(struct plugin *plugin, const char *path, const char *text) {
    uint32_t fd = open_file(plugin, path, CREAT, RIGHT_WRITE);
    memcpy(plugin->memory + TEXT, text, strlen(text));
    put(plugin, BUFFER, TEXT);
    put(plugin, BUFFER + 4, strlen(text));
    uint32_t code = wasi_fd_write(&plugin->sandbox, plugin->memory, MEMORY, fd, BUFFER, 1, ANSWER);
    printf("%s writes %s: %u\n", plugin->name, path, (unsigned)code);
    wasi_fd_close(&plugin->sandbox, plugin->memory, MEMORY, fd);
}

static void tell_file(struct plugin *plugin, const char *path) {
    uint32_t fd = open_file(plugin, path, 0, RIGHT_READ);
    if (fd == 0) {
        printf("%s finds no %s\n", plugin->name, path);
        return;
    }
    put(plugin, BUFFER, ROOM);
    put(plugin, BUFFER + 4, MEMORY - ROOM);
    wasi_fd_read(&plugin->sandbox, plugin->memory, MEMORY, fd, BUFFER, 1, ANSWER);
    printf("%s finds %s: %.*s\n", plugin->name, path, (int)get(plugin, ANSWER), (const char *)plugin->memory + ROOM);
    wasi_fd_close(&plugin->sandbox, plugin->memory, MEMORY, fd);
}

static void tell_kept(struct plugin *plugin) {
    uint64_t numbers[NUMBERS];
    size_t len = 0;
    uint32_t code = wasi_kept(&plugin->sandbox, numbers, NUMBERS, &len);
    printf("%s keeps (%u):", plugin->name, (unsigned)code);
    for (size_t i = 0; code == 0 && i < len; i++) {
        printf(" %llu", (unsigned long long)numbers[i]);
    }
    printf("\n");
}

static void refusals(wasi_base base) {
    struct plugin plugin = {"nobody", {0}, {0}};
    wasi_base none = {0};
    printf("over no base: %u\n", (unsigned)start_over(&plugin, none, OVER));
    printf("with nodes of its own: %u\n", (unsigned)start_over(&plugin, base, BASE));
    printf("with a preopen that is a file: %u\n",
           (unsigned)start_over(&plugin, base, "{\"nodes\":[],\"preopens\":[{\"node\":2,\"name\":\"/\",\"perms\":\"rw\"}],"
                                               "\"calls\":[]}"));
    printf("with calls: %u\n",
           (unsigned)start_over(&plugin, base, "{\"nodes\":[],\"preopens\":[],\"calls\":[[\"sched_yield\"]]}"));
    printf("it is empty: %d\n", plugin.sandbox.at == 0);
}

int main(void) {
    wasi_sandbox first = {0};
    static wasi_base base, committed;
    if (wasi_start(&first, (const uint8_t *)BASE, strlen(BASE)) != 0 || wasi_commit(&first, &base) != 0) {
        return EXIT_FAILURE;
    }
    uint64_t number = 0;
    size_t len = 0;
    printf("the first keeps nothing apart: %u\n", (unsigned)wasi_kept(&first, &number, 1, &len));
    wasi_end(&first);
    refusals(base);

    static struct plugin one = {"one", {0}, {0}}, other = {"other", {0}, {0}}, next = {"next", {0}, {0}};
    if (start_over(&one, base, OVER) != 0 || start_over(&other, base, OVER) != 0) {
        return EXIT_FAILURE;
    }
    put_file(&one, "note", "by one");
    put_file(&one, "motd", "new");
    tell_file(&other, "note");
    tell_file(&other, "motd");
    put_file(&other, "note", "by other");
    tell_file(&one, "note");
    tell_kept(&one);
    tell_kept(&other);
    uint64_t nodes = 0, bytes = 0;
    wasi_quota_used(&one.sandbox, &nodes, &bytes);
    printf("one has used %llu of its makings, and %llu of its bytes\n", (unsigned long long)nodes,
           (unsigned long long)bytes);

    printf("one is committed: %u\n", (unsigned)wasi_commit(&one.sandbox, &committed));
    wasi_end(&one.sandbox);
    wasi_end(&other.sandbox);
    if (start_over(&next, committed, OVER) != 0 || start_over(&one, base, OVER) != 0) {
        return EXIT_FAILURE;
    }
    tell_file(&next, "note");
    tell_file(&next, "motd");
    tell_kept(&next);
    tell_file(&one, "note");
    tell_file(&one, "motd");
    wasi_end(&next.sandbox);
    wasi_end(&one.sandbox);
    return EXIT_SUCCESS;
}
