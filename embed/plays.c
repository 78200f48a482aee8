// A program that plays a guest: it calls the functions of wasi.h on a memory of its own, and holds what they answer
// against docs/calls.md and docs/embedding.md. It writes a line for each that differs, and at the end whether
// all agree.
#include <stdio.h>
#include <stdlib.h>
#include <string.h>

#include "zurgwenad/names.h"
#include "zurgwenad/wasi.h"

enum {
    PAGE = 65536,
    /// The record of a buffer stands here, and what calls answer from 16 on.
    BUFFER = 0,
    ANSWER = 16,
    SECOND = 24,
    STAT = 64,
    PATH = 256,
    TEXT = 512,
    ROOM = 1024
};

enum { RIGHT_READ = 2, RIGHT_WRITE = 64, CREAT = 1, DIRECTORY = 2 };

/// Error numbers of preview1.

static unsigned differed;

static void hold(const char *what, uint64_t got, uint64_t wanted) {
    if (got != wanted) {
        differed++;
        printf("%s: %llu, and not %llu\n", what, (unsigned long long)got, (unsigned long long)wanted);
    }
}

/// A guest: its sandbox, and its memory, which its engine owns.
struct guest {
    wasi_sandbox sandbox;
    uint8_t *memory;
    size_t len;
};

static uint64_t number(const struct guest *guest, uint32_t at, unsigned size) {
    uint64_t n = 0;
    while (size-- > 0) {
        n = n << 8 | guest->memory[at + size];
    }
    return n;
}

static void put(struct guest *guest, uint32_t at, uint32_t n) {
    for (unsigned i = 0; i < 4; i++) {
        guest->memory[at + i] = n >> 8 * i & 255;
    }
}

static uint32_t text(struct guest *guest, uint32_t at, const char *text) {
    memcpy(guest->memory + at, text, strlen(text));
    return strlen(text);
}

static void buffer(struct guest *guest, uint32_t at, uint32_t len) {
    put(guest, BUFFER, at);
    put(guest, BUFFER + 4, len);
}

static uint32_t start(struct guest *guest, const char *script) {
    return wasi_start(&guest->sandbox, (const uint8_t *)script, strlen(script));
}

static uint32_t open_at(struct guest *guest, const char *path, uint32_t oflags, uint64_t rights) {
    return wasi_path_open(&guest->sandbox, guest->memory, guest->len, 3, 1, PATH, text(guest, PATH, path), oflags,
                          rights, 0, 0, ANSWER);
}

static void refusals(struct guest *guest) {
    hold("a call of an empty sandbox", wasi_fd_close(&guest->sandbox, guest->memory, guest->len, 3), WASI_EMPTY);
    hold("calls answered by an empty sandbox", wasi_answered(&guest->sandbox), 0);
    size_t len = 7;
    hold("the report of an empty sandbox", wasi_report(&guest->sandbox, guest->memory, 9, &len), WASI_EMPTY);
    hold("its length", len, 7);
    wasi_end(&guest->sandbox);
    hold("a script that isn't JSON", start(guest, "{"), WASI_REFUSED_JSON);
    hold("a script of another shape", start(guest, "[]"), WASI_REFUSED_SHAPE);
    hold("nodes that are no tree", start(guest, "{\"nodes\":[{\"dir\":{\"a\":0}}],\"preopens\":[],\"calls\":[]}"),
         WASI_REFUSED_TREE);
    hold("a script with calls", start(guest, "{\"nodes\":[{\"dir\":{}}],\"preopens\":[],\"calls\":[[\"sched_yield\"]]}"),
         WASI_REFUSED_GUEST);
    hold("a script with a memory",
         start(guest, "{\"nodes\":[{\"dir\":{}}],\"preopens\":[],\"memory\":{\"size\":64,\"pieces\":[]},\"calls\":[]}"),
         WASI_REFUSED_GUEST);
    hold("a refused sandbox is empty", guest->sandbox.at == 0, 1);
}

static void files(struct guest *guest) {
    wasi_sandbox *sandbox = &guest->sandbox;
    uint8_t *memory = guest->memory;
    size_t len = guest->len;

    hold("fd_prestat_get", wasi_fd_prestat_get(sandbox, memory, len, 3, ANSWER), 0);
    hold("its tag", number(guest, ANSWER, 4), 0);
    hold("the length of the name", number(guest, ANSWER + 4, 4), 5);
    hold("fd_prestat_dir_name", wasi_fd_prestat_dir_name(sandbox, memory, len, 3, ROOM, 5), 0);
    hold("the name", memcmp(memory + ROOM, "/home", 5), 0);

    hold("path_open of a file to be made", open_at(guest, "note.txt", CREAT, RIGHT_WRITE), 0);
    uint32_t fd = number(guest, ANSWER, 4);
    hold("its descriptor", fd, 4);
    buffer(guest, TEXT, text(guest, TEXT, "hello, tree\n"));
    hold("fd_write", wasi_fd_write(sandbox, memory, len, fd, BUFFER, 1, SECOND), 0);
    hold("how many bytes were written", number(guest, SECOND, 4), 12);
    hold("fd_tell", wasi_fd_tell(sandbox, memory, len, fd, STAT), 0);
    hold("the position", number(guest, STAT, 8), 12);
    hold("fd_seek", wasi_fd_seek(sandbox, memory, len, fd, -5, 2, STAT), 0);
    hold("the position sought", number(guest, STAT, 8), 7);
    hold("fd_seek far away", wasi_fd_seek(sandbox, memory, len, fd, 8589934592, 0, STAT), 0);
    hold("a position of more than 32 bits", number(guest, STAT, 8), 8589934592);
    hold("fd_filestat_get", wasi_fd_filestat_get(sandbox, memory, len, fd, STAT), 0);
    hold("the type of a file", number(guest, STAT + 16, 1), 4);
    hold("its links", number(guest, STAT + 24, 8), 1);
    hold("its size", number(guest, STAT + 32, 8), 12);
    hold("fd_fdstat_get", wasi_fd_fdstat_get(sandbox, memory, len, fd, STAT), 0);
    hold("the type of a descriptor", number(guest, STAT, 1), 4);
    hold("fd_close", wasi_fd_close(sandbox, memory, len, fd), 0);

    hold("path_open of what is there", open_at(guest, "note.txt", 0, RIGHT_READ), 0);
    fd = number(guest, ANSWER, 4);
    buffer(guest, ROOM, 64);
    hold("fd_read", wasi_fd_read(sandbox, memory, len, fd, BUFFER, 1, SECOND), 0);
    hold("how many bytes were read", number(guest, SECOND, 4), 12);
    hold("the bytes", memcmp(memory + ROOM, "hello, tree\n", 12), 0);
    hold("fd_close again", wasi_fd_close(sandbox, memory, len, fd), 0);

    hold("path_create_directory", wasi_path_create_directory(sandbox, memory, len, 3, PATH, text(guest, PATH, "d")), 0);
    hold("path_rename", wasi_path_rename(sandbox, memory, len, 3, PATH, text(guest, PATH, "note.txt"), 3, TEXT,
                                         text(guest, TEXT, "d/n")), 0);
    hold("path_filestat_get", wasi_path_filestat_get(sandbox, memory, len, 3, 1, PATH, text(guest, PATH, "d/n"), STAT),
         0);
    hold("the size under the new name", number(guest, STAT + 32, 8), 12);
    hold("path_open of a directory", open_at(guest, "d", DIRECTORY, 0), 0);
    fd = number(guest, ANSWER, 4);
    hold("fd_readdir", wasi_fd_readdir(sandbox, memory, len, fd, ROOM, 256, 0, SECOND), 0);
    hold("the records of `.`, `..` and a name", number(guest, SECOND, 4), 25 + 26 + 25);
    hold("the length of the name", number(guest, ROOM + 25 + 26 + 16, 4), 1);
    hold("the type of what it names", memory[ROOM + 25 + 26 + 20], 4);
    hold("the name", memory[ROOM + 25 + 26 + 24], 'n');
    hold("fd_tell of a stream", wasi_fd_tell(sandbox, memory, len, 1, STAT), WASI_ERRNO_SPIPE);
    hold("fd_close of no descriptor", wasi_fd_close(sandbox, memory, len, 77), WASI_ERRNO_BADF);

    hold("args_sizes_get", wasi_args_sizes_get(sandbox, memory, len, ANSWER, SECOND), 0);
    hold("how many arguments", number(guest, ANSWER, 4), 2);
    hold("their bytes", number(guest, SECOND, 4), 9);
    hold("random_get", wasi_random_get(sandbox, memory, len, ROOM, 4), 0);
    hold("random bytes round and round", number(guest, ROOM, 4), 0x01030201);
    buffer(guest, TEXT, text(guest, TEXT, "out\n"));
    hold("fd_write to the output", wasi_fd_write(sandbox, memory, len, 1, BUFFER, 1, SECOND), 0);
}

/// What is left of the calls that have results.
static void services(struct guest *guest) {
    wasi_sandbox *sandbox = &guest->sandbox;
    uint8_t *memory = guest->memory;
    size_t len = guest->len;
    memset(memory + ANSWER, 0xff, 16);
    hold("environ_sizes_get", wasi_environ_sizes_get(sandbox, memory, len, ANSWER, SECOND), 0);
    hold("how many variables", number(guest, ANSWER, 4), 1);
    hold("their bytes", number(guest, SECOND, 4), 7);
    hold("clock_res_get", wasi_clock_res_get(sandbox, memory, len, 0, STAT), 0);
    hold("the resolution", number(guest, STAT, 8), 1000);
    hold("clock_time_get", wasi_clock_time_get(sandbox, memory, len, 0, 1, STAT), 0);
    hold("the time", number(guest, STAT, 8), 1700000000000000500);

    hold("path_open", open_at(guest, "d/n", 0, RIGHT_READ | RIGHT_WRITE), 0);
    uint32_t fd = number(guest, ANSWER, 4);
    buffer(guest, TEXT, text(guest, TEXT, "p!"));
    hold("fd_pwrite", wasi_fd_pwrite(sandbox, memory, len, fd, BUFFER, 1, 3, SECOND), 0);
    hold("how many bytes were written", number(guest, SECOND, 4), 2);
    buffer(guest, ROOM, 64);
    hold("fd_pread", wasi_fd_pread(sandbox, memory, len, fd, BUFFER, 1, 2, SECOND), 0);
    hold("how many bytes were read", number(guest, SECOND, 4), 10);
    hold("the bytes", memcmp(memory + ROOM, "lp!, tree\n", 10), 0);
    buffer(guest, TEXT, text(guest, TEXT, "lo"));
    hold("fd_pwrite back", wasi_fd_pwrite(sandbox, memory, len, fd, BUFFER, 1, 3, SECOND), 0);
    hold("fd_close", wasi_fd_close(sandbox, memory, len, fd), 0);
    hold("path_readlink", wasi_path_readlink(sandbox, memory, len, 3, PATH, text(guest, PATH, "up"), ROOM, 64, SECOND), 0);
    hold("the length of a link", number(guest, SECOND, 4), 9);

    memset(memory + ROOM, 0, 48);
    put(guest, ROOM, 7);
    put(guest, ROOM + 16, 1);
    hold("poll_oneoff", wasi_poll_oneoff(sandbox, memory, len, ROOM, ROOM + 64, 1, SECOND), 0);
    hold("how many events", number(guest, SECOND, 4), 1);
    hold("whose it is", number(guest, ROOM + 64, 8), 7);
    hold("sock_recv", wasi_sock_recv(sandbox, memory, len, 3, BUFFER, 1, 0, ANSWER, SECOND), WASI_ERRNO_NOTSOCK);
}

/// Paths that would leave the directory that the guest was given.
static void escapes(struct guest *guest) {
    hold("..", open_at(guest, "..", 0, RIGHT_READ), WASI_ERRNO_PERM);
    hold("a path by `..`", open_at(guest, "d/../../home", 0, RIGHT_READ), WASI_ERRNO_PERM);
    hold("an absolute path", open_at(guest, "/home/d", 0, RIGHT_READ), WASI_ERRNO_PERM);
    hold("a link that leads above", open_at(guest, "up", 0, RIGHT_READ), WASI_ERRNO_PERM);
    hold("a link to the root", open_at(guest, "root/secret", 0, RIGHT_READ), WASI_ERRNO_PERM);
    hold("path_symlink to an absolute path",
         wasi_path_symlink(&guest->sandbox, guest->memory, guest->len, TEXT, text(guest, TEXT, "/secret"), 3, PATH,
                           text(guest, PATH, "mine")), WASI_ERRNO_PERM);
    hold("path_rename to above", wasi_path_rename(&guest->sandbox, guest->memory, guest->len, 3, PATH,
                                                  text(guest, PATH, "d"), 3, TEXT, text(guest, TEXT, "../d")), WASI_ERRNO_PERM);
}

static const char SCRIPT[] =
    "{\"nodes\":[{\"dir\":{\"home\":1,\"secret\":2}},{\"dir\":{\"up\":3,\"root\":4}},{\"file\":\"736563726574\"},"
    "{\"link\":\"../secret\"},{\"link\":\"/\"}],"
    "\"preopens\":[{\"node\":1,\"name\":\"/home\",\"perms\":\"rw\"}],"
    "\"args\":[\"guest\",\"-v\"],\"env\":[[\"LANG\",\"C\"]],\"random\":\"010203\",\"wall\":[1700000000,500],"
    "\"wall_res\":[0,1000],\"mono\":250,\"calls\":[]}";

/// A call with a stray address, by a descriptor of a file.
static uint32_t stray(struct guest *guest, unsigned which, uint32_t fd) {
    wasi_sandbox *sandbox = &guest->sandbox;
    uint8_t *memory = guest->memory;
    size_t len = guest->len;
    switch (which) {
    case 0:
        return wasi_fd_write(sandbox, memory, len, fd, BUFFER, 1, SECOND + 1);
    case 1:
        return wasi_fd_tell(sandbox, memory, len, fd, STAT + 4);
    case 2:
        return wasi_fd_write(sandbox, memory, len, fd, BUFFER, 1, len);
    case 3:
        return wasi_fd_filestat_get(sandbox, memory, len, fd, len - 56);
    case 4:
        return wasi_fd_tell(sandbox, memory, len, fd, 0xfffffff8);
    case 5:
        return wasi_args_sizes_get(sandbox, memory, len, ANSWER, len - 2);
    case 6:
        return wasi_fd_tell(sandbox, memory, 0, fd, 0);
    case 7:
        return wasi_fd_tell(sandbox, memory, len, 77, 1);
    default:
        return wasi_fd_write(sandbox, memory, len, fd, len - 4, 1, SECOND);
    }
}

static const char *const STRAYS[] = {
    "a result that isn't aligned",
    "a result of 64 bits aligned to 4",
    "a result behind the memory",
    "a result over its end",
    "a result at the last address",
    "the second of two results",
    "a memory of no bytes",
    "a stray descriptor whose result is stray too",
    "a buffer behind the memory",
};

/// A trap leaves the memory, and each later call answers it again. It is counted only where the call was made, as with
/// a stray buffer; with a stray result it isn't.
static void traps(void) {
    unsigned count = sizeof STRAYS / sizeof STRAYS[0];
    for (unsigned which = 0; which < count; which++) {
        struct guest guest = {{0}, calloc(PAGE, 1), PAGE};
        uint8_t *was = malloc(PAGE);
        if (!guest.memory || !was) {
            exit(1);
        }
        hold("wasi_start", start(&guest, SCRIPT), 0);
        hold("path_open", open_at(&guest, "n", 1, RIGHT_WRITE), 0);
        uint32_t fd = number(&guest, ANSWER, 4);
        buffer(&guest, TEXT, 4);
        memcpy(was, guest.memory, PAGE);
        hold(STRAYS[which], stray(&guest, which, fd), WASI_TRAP_POINTER);
        uint64_t answered = wasi_answered(&guest.sandbox);
        hold("how many are counted", answered, which + 1 == count ? 2 : 1);
        hold("a call after a trap", wasi_fd_tell(&guest.sandbox, guest.memory, PAGE, fd, STAT), WASI_TRAP_POINTER);
        hold("it isn't counted", wasi_answered(&guest.sandbox), answered);
        hold("the memory stays", memcmp(guest.memory, was, PAGE), 0);
        wasi_end(&guest.sandbox);
        free(guest.memory);
        free(was);
    }
}

static int contains(const uint8_t *bytes, size_t len, const char *word) {
    size_t n = strlen(word);
    for (size_t i = 0; i + n <= len; i++) {
        if (memcmp(bytes + i, word, n) == 0) {
            return 1;
        }
    }
    return 0;
}

static void reports(struct guest *guest) {
    uint8_t none = 0;
    size_t len = 0;
    hold("a report with no room", wasi_report(&guest->sandbox, &none, 0, &len), WASI_SHORT);
    uint8_t *report = malloc(len + 8);
    if (!report) {
        exit(1);
    }
    memset(report, 0xee, len + 8);
    size_t told = 0;
    hold("one byte too few", wasi_report(&guest->sandbox, report, len - 1, &told), WASI_SHORT);
    hold("its length", told, len);
    hold("the room stays", report[0], 0xee);
    hold("a report", wasi_report(&guest->sandbox, report, len + 8, &told), 0);
    hold("its length", told, len);
    hold("what is behind it stays", report[len], 0xee);
    hold("it ends with a newline", report[len - 1], '\n');
    hold("its answers", contains(report, len, "\"answers\":[]"), 1);
    hold("its memory", contains(report, len, "\"memory\":[]"), 1);
    hold("its output", contains(report, len, "\"stdout\":\"6f75740a\""), 1);
    hold("the file that was written", contains(report, len, "\"file\":\"68656c6c6f2c20747265650a\""), 1);
    hold("the file that the guest can't come to", contains(report, len, "\"file\":\"736563726574\""), 1);
    free(report);
}

int main(void) {
    struct guest one = {{0}, calloc(PAGE, 1), PAGE}, other = {{0}, calloc(PAGE, 1), PAGE};
    if (!one.memory || !other.memory) {
        return 1;
    }
    refusals(&one);
    hold("wasi_start", start(&one, SCRIPT), 0);
    hold("wasi_start of one that isn't empty", start(&one, SCRIPT), WASI_FULL);
    hold("a second sandbox beside it", start(&other, SCRIPT), 0);
    hold("nothing is answered yet", wasi_answered(&one.sandbox), 0);
    files(&one);
    services(&one);
    escapes(&one);
    traps();
    hold("what one made isn't in the other", open_at(&other, "d", 0, RIGHT_READ), WASI_ERRNO_NOENT);
    hold("the other has answered one call", wasi_answered(&other.sandbox), 1);

    uint8_t *more = realloc(one.memory, 2 * PAGE);
    if (!more) {
        return 1;
    }
    one.memory = more;
    one.len = 2 * PAGE;
    memset(one.memory + PAGE, 0, PAGE);
    hold("a result at the end of the memory", wasi_args_sizes_get(&one.sandbox, one.memory, one.len, ANSWER, 2 * PAGE - 4), 0);
    hold("a result in memory that grew", wasi_fd_tell(&one.sandbox, one.memory, one.len, 1, PAGE), WASI_ERRNO_SPIPE);
    hold("sched_yield", wasi_sched_yield(&one.sandbox, one.memory, one.len), 0);
    reports(&one);

    hold("proc_exit", wasi_proc_exit(&one.sandbox, one.memory, one.len, 3), WASI_EXIT);
    hold("it ends the guest", wasi_ends_guest(WASI_EXIT), 1);
    hold("a call after it", wasi_sched_yield(&one.sandbox, one.memory, one.len), WASI_EXIT);
    hold("an exit after it", wasi_proc_exit(&one.sandbox, one.memory, one.len, 126), WASI_EXIT);
    hold("proc_exit with 126", wasi_proc_exit(&other.sandbox, other.memory, other.len, 126), WASI_TRAP_EXIT);
    wasi_end(&one.sandbox);
    hold("an ended sandbox is empty", one.sandbox.at == 0, 1);
    wasi_end(&one.sandbox);
    wasi_end(&other.sandbox);
    free(one.memory);
    free(other.memory);
    puts(differed == 0 ? "all agree" : "some differ");
    return differed != 0;
}
