/* The guest of embed/bench: each export makes so many calls of preview1, and gives the sum of their error numbers. It has
   one directory, in which `prepare` makes what the others work on. */

#include <stdint.h>
#include <string.h>
#include <wasi/api.h>

#define GIVEN 3
#define NAMES 16
#define MANY 1000
#define RIGHTS (__WASI_RIGHTS_FD_READ | __WASI_RIGHTS_FD_WRITE | __WASI_RIGHTS_FD_SEEK | __WASI_RIGHTS_FD_TELL)
#define EXPORT(NAME) __attribute__((export_name(#NAME)))

static const char *const shallow = "f";
static const char *const deep = "d/d/d/d/d/d/d/f";
static uint8_t buffer[4096];
static __wasi_fd_t file, directory, large;

static __wasi_errno_t open_path(const char *path, __wasi_oflags_t flags, __wasi_rights_t rights, __wasi_fd_t *opened) {
    return __wasi_path_open(GIVEN, 0, path, flags, rights, rights, 0, opened);
}

static uint32_t make_file(const char *path) {
    __wasi_fd_t opened;
    uint32_t errors = open_path(path, __WASI_OFLAGS_CREAT, RIGHTS, &opened);
    return errors ? errors : __wasi_fd_close(opened);
}

static uint32_t make_many(void) {
    char name[] = "many/000";
    uint32_t errors = __wasi_path_create_directory(GIVEN, "many");
    for (int place = 0; place < MANY; place += 1) {
        name[5] = (char)('0' + place / 100);
        name[6] = (char)('0' + place / 10 % 10);
        name[7] = (char)('0' + place % 10);
        errors += make_file(name);
    }
    return errors;
}

EXPORT(prepare) uint32_t prepare(void) {
    char path[] = "d/d/d/d/d/d/d", name[] = "list/a";
    uint32_t errors = 0;
    for (size_t length = 1; length < sizeof path; length += 2) {
        path[length] = 0;
        errors += __wasi_path_create_directory(GIVEN, path);
        path[length] = '/';
    }
    errors += __wasi_path_create_directory(GIVEN, "list");
    for (int place = 0; place < NAMES; place += 1) {
        name[5] = (char)('a' + place);
        errors += make_file(name);
    }
    errors += make_file(deep) + make_file("old") + make_many();
    errors += open_path(shallow, __WASI_OFLAGS_CREAT, RIGHTS, &file);
    __wasi_size_t count;
    __wasi_ciovec_t record = {buffer, sizeof buffer};
    errors += __wasi_fd_pwrite(file, &record, 1, 0, &count);
    errors += open_path("many", __WASI_OFLAGS_DIRECTORY, __WASI_RIGHTS_FD_READDIR, &large);
    return errors + open_path("list", __WASI_OFLAGS_DIRECTORY, __WASI_RIGHTS_FD_READDIR, &directory);
}

/* Opens so many descriptors, which stay open. */
EXPORT(fill) uint32_t fill(uint32_t rounds) {
    uint32_t errors = 0;
    __wasi_fd_t opened;
    for (uint32_t round = 0; round < rounds; round += 1) {
        errors += open_path(shallow, 0, __WASI_RIGHTS_FD_READ, &opened);
    }
    return errors;
}

EXPORT(tell) uint32_t tell(uint32_t rounds) {
    uint32_t errors = 0;
    __wasi_filesize_t position;
    for (uint32_t round = 0; round < rounds; round += 1) errors += __wasi_fd_tell(file, &position);
    return errors;
}

static uint32_t read_of(uint32_t rounds, size_t size) {
    uint32_t errors = 0;
    __wasi_size_t count;
    __wasi_iovec_t record = {buffer, size};
    for (uint32_t round = 0; round < rounds; round += 1) errors += __wasi_fd_pread(file, &record, 1, 0, &count);
    return errors + (count != size);
}

EXPORT(read_16) uint32_t read_16(uint32_t rounds) { return read_of(rounds, 16); }

EXPORT(read_4096) uint32_t read_4096(uint32_t rounds) { return read_of(rounds, 4096); }

static uint32_t write_of(uint32_t rounds, size_t size) {
    uint32_t errors = 0;
    __wasi_size_t count;
    __wasi_ciovec_t record = {buffer, size};
    for (uint32_t round = 0; round < rounds; round += 1) errors += __wasi_fd_pwrite(file, &record, 1, 0, &count);
    return errors + (count != size);
}

EXPORT(write_16) uint32_t write_16(uint32_t rounds) { return write_of(rounds, 16); }

EXPORT(write_4096) uint32_t write_4096(uint32_t rounds) { return write_of(rounds, 4096); }

static uint32_t open_of(uint32_t rounds, const char *path) {
    uint32_t errors = 0;
    __wasi_fd_t opened;
    for (uint32_t round = 0; round < rounds; round += 1) {
        errors += open_path(path, 0, __WASI_RIGHTS_FD_READ, &opened);
        errors += __wasi_fd_close(opened);
    }
    return errors;
}

EXPORT(open_1) uint32_t open_1(uint32_t rounds) { return open_of(rounds, shallow); }

EXPORT(open_8) uint32_t open_8(uint32_t rounds) { return open_of(rounds, deep); }

EXPORT(stat_1) uint32_t stat_1(uint32_t rounds) {
    uint32_t errors = 0;
    __wasi_filestat_t status;
    for (uint32_t round = 0; round < rounds; round += 1) errors += __wasi_path_filestat_get(GIVEN, 0, shallow, &status);
    return errors;
}

EXPORT(list) uint32_t list(uint32_t rounds) {
    uint32_t errors = 0;
    __wasi_size_t used;
    for (uint32_t round = 0; round < rounds; round += 1) {
        errors += __wasi_fd_readdir(directory, buffer, sizeof buffer, 0, &used);
    }
    return errors;
}

/* The whole of a large directory, through one buffer after another: a round has some ten calls. */
EXPORT(list_all) uint32_t list_all(uint32_t rounds) {
    uint32_t errors = 0;
    for (uint32_t round = 0; round < rounds; round += 1) {
        __wasi_dircookie_t cookie = 0;
        __wasi_size_t used = sizeof buffer;
        while (used == sizeof buffer) {
            errors += __wasi_fd_readdir(large, buffer, sizeof buffer, cookie, &used);
            for (__wasi_size_t at = 0; at + sizeof(__wasi_dirent_t) <= used;) {
                __wasi_dirent_t entry;
                memcpy(&entry, buffer + at, sizeof entry);
                at += sizeof entry + entry.d_namlen;
                if (at <= used) cookie = entry.d_next;
            }
        }
    }
    return errors;
}

EXPORT(rename_there) uint32_t rename_there(uint32_t rounds) {
    uint32_t errors = 0;
    for (uint32_t round = 0; round < rounds; round += 2) {
        errors += __wasi_path_rename(GIVEN, "old", GIVEN, "new");
        errors += __wasi_path_rename(GIVEN, "new", GIVEN, "old");
    }
    return errors;
}
