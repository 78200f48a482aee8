/// The calls of `wasi_snapshot_preview1` over a tree of files in memory, for an engine of WebAssembly. Plain C99.
///
/// A sandbox is begun by the text of a script (docs/scripts.md) that has no calls, no memory and no ranges of it to be
/// shown. Each call of a guest is then one function, with the parameters of preview1's C interface behind three of the
/// engine's: the sandbox, and the guest's memory as a pointer and a length, which is lent for the call and never
/// copied. Results are written into it at the addresses that the guest gave. Sizes, offsets, positions and lengths are
/// in bytes, but `iovs_len` and `count`, which are in records; times are in nanoseconds. What is proved of this, and
/// what the caller owes, stands in docs/embedding.md.
#ifndef WASI_EMBED_H
#define WASI_EMBED_H

#include <stdbool.h>
#include <stddef.h>
#include <stdint.h>

/// The version of this header and of the library that it declares.
#define WASI_C_VERSION_MAJOR 0
#define WASI_C_VERSION_MINOR 1
#define WASI_C_VERSION_PATCH 0

#ifdef __cplusplus
extern "C" {
#endif

/// One sandbox. All zeros, as `{0}`, is the empty one. Never copy it: pass its address on.
typedef struct {
    void *at;
} wasi_sandbox;

/// A tree that sandboxes stand over, and that stays for as long as the program runs: no function changes it, and none lets it
/// go. All zeros, as `{0}`, is none. It may be copied.
typedef struct {
    const void *at;
} wasi_base;

/// What each function answers: 0; or preview1's error number, from 1 to 76; or one of these.
///
/// After an error number but `io`, and after the numbers from WASI_TRAP_POINTER to WASI_NO_MEMORY, these stand as
/// before the call: the descriptors and how many there may be, the guest's memory, what it was handed in and has
/// written, what it has used of its quotas, and the tree. The host calls that were made keep their numbers for the
/// script's `faults`, the nodes that they came to are told as touched, and one answer more is counted, but for
/// WASI_NO_MEMORY. A call whose result has no place in the memory isn't made: it is WASI_TRAP_POINTER too, and nothing
/// changes, but that the guest is stopped.
///
/// After a number from WASI_TRAP_POINTER to WASI_EXIT the guest's run has ended: each later call answers the same number
/// again, and nothing changes.
enum {
    /// The guest gave an address outside its memory, or one that isn't aligned.
    WASI_TRAP_POINTER = 256,
    /// There would be more descriptors than the script's table has room for.
    WASI_TRAP_TABLE = 257,
    /// The guest ended with a status of 126 or more.
    WASI_TRAP_EXIT = 258,
    /// The guest ended, with the status that it gave `proc_exit`.
    WASI_EXIT = 259,
    /// Memory was wanted.
    WASI_NO_MEMORY = 260,
    /// The sandbox is empty.
    WASI_EMPTY = 261,
    /// The report, or the listing, is longer than the room for it.
    WASI_SHORT = 262,
    /// The sandbox, or the base, isn't empty.
    WASI_FULL = 263,
    /// There is no base.
    WASI_NO_BASE = 264,
    /// The script has more than 16,777,216 bytes.
    WASI_REFUSED_LONG = 270,
    /// The script isn't JSON.
    WASI_REFUSED_JSON = 271,
    /// The script is JSON, and isn't of a script's shape.
    WASI_REFUSED_SHAPE = 272,
    /// The script's nodes are no tree.
    WASI_REFUSED_TREE = 273,
    /// The script passes a limit.
    WASI_REFUSED_LIMIT = 274,
    /// The script has calls, a memory, or ranges of it to be shown.
    WASI_REFUSED_GUEST = 275,
    /// The script of a sandbox over a base has nodes or limits of its own.
    WASI_REFUSED_OWN_TREE = 276,
    /// The sandbox stands over no base.
    WASI_ALONE = 277,
    /// No call has the number, or it wants more words than there are.
    WASI_NO_CALL = 278,
    /// No node has the number, or the directory holds none under the name.
    WASI_NO_NODE = 279,
    /// The node is a directory, which has no bytes.
    WASI_DIRECTORY = 280
};

/// The empty sandbox, which the library puts in the place of the one that it works on.
static inline wasi_sandbox wasi_nothing(void) {
    wasi_sandbox nothing = {0};
    return nothing;
}

/// Whether a call's answer is one after which the guest must not go on: a trap, its own end, want of memory
/// (WASI_NO_MEMORY), or that the sandbox is empty (WASI_EMPTY). It is so of each number from 256 on.
static inline int wasi_ends_guest(uint32_t code) {
    return code >= WASI_TRAP_POINTER;
}

uint32_t wasi_c_start(wasi_sandbox *sandbox, const uint8_t *script, size_t script_len);

/// Begins a sandbox by the text of a script, in place of an empty one. 0; WASI_FULL; WASI_NO_MEMORY; or why the
/// script is refused. Where it isn't 0 the sandbox stays.
static inline uint32_t wasi_start(wasi_sandbox *sandbox, const uint8_t *script, size_t script_len) {
    if (sandbox->at) {
        return WASI_FULL;
    }
    return wasi_c_start(sandbox, script, script_len);
}

uint32_t wasi_c_start_over(wasi_base base, wasi_sandbox *sandbox, const uint8_t *script, size_t script_len);

/// Begins a sandbox over a base, in place of an empty one, by the text of a script whose `nodes` are `[]` and that has no
/// `limits`: its preopens are directories of the base's tree. No tree is copied; any number of sandboxes may stand over
/// one base, each with its own changes, which none of the others sees. 0; WASI_FULL; WASI_NO_BASE; WASI_NO_MEMORY; or why
/// the script is refused. Where it isn't 0 the sandbox stays.
static inline uint32_t wasi_start_over(wasi_base base, wasi_sandbox *sandbox, const uint8_t *script,
        size_t script_len) {
    if (sandbox->at) {
        return WASI_FULL;
    }
    if (!base.at) {
        return WASI_NO_BASE;
    }
    return wasi_c_start_over(base, sandbox, script, script_len);
}

uint32_t wasi_c_commit(wasi_sandbox *sandbox, wasi_sandbox empty, wasi_base *base);

/// Makes a base of a sandbox's tree as it stands, in place of none: a copy, which stays for as long as the program runs.
/// The sandbox stays, and so does the base that it may stand over. 0; WASI_EMPTY; WASI_FULL, where there is a base; or
/// WASI_NO_MEMORY. Where it isn't 0 there still is none.
static inline uint32_t wasi_commit(wasi_sandbox *sandbox, wasi_base *base) {
    if (!sandbox->at) {
        return WASI_EMPTY;
    }
    if (base->at) {
        return WASI_FULL;
    }
    return wasi_c_commit(sandbox, wasi_nothing(), base);
}

uint32_t wasi_c_kept(wasi_sandbox *sandbox, wasi_sandbox empty, uint64_t *numbers, size_t room, size_t *len);

/// The numbers of the nodes that a sandbox over a base has worked on, rising, as the report numbers them. 0, the
/// numbers in front of the room, and how many they are; or WASI_SHORT, and only how many; or WASI_ALONE,
/// WASI_NO_MEMORY or WASI_EMPTY, and neither. `room` is in numbers; the pointer isn't null, also where it is 0.
static inline uint32_t wasi_kept(wasi_sandbox *sandbox, uint64_t *numbers, size_t room, size_t *len) {
    if (!sandbox->at) {
        return WASI_EMPTY;
    }
    return wasi_c_kept(sandbox, wasi_nothing(), numbers, room, len);
}

uint64_t wasi_c_answered(wasi_sandbox *sandbox, wasi_sandbox empty);

/// How many calls were answered so far, refusals, traps and the guest's end among them; 2^64 - 1 where they are more.
/// A call that wanted memory isn't counted, and neither is one that wasn't made since a result had no place in the
/// guest's memory. 0 of an empty sandbox.
static inline uint64_t wasi_answered(wasi_sandbox *sandbox) {
    return sandbox->at ? wasi_c_answered(sandbox, wasi_nothing()) : 0;
}

void wasi_c_quota_used(wasi_sandbox *sandbox, wasi_sandbox empty, uint64_t *nodes, uint64_t *bytes);

/// How much of the script's `quota` the guest has used so far: 0, how many makings, and how many bytes by which files
/// became longer; or WASI_EMPTY, and neither. A count without a bound is 0.
static inline uint32_t wasi_quota_used(wasi_sandbox *sandbox, uint64_t *nodes, uint64_t *bytes) {
    if (!sandbox->at) {
        return WASI_EMPTY;
    }
    wasi_c_quota_used(sandbox, wasi_nothing(), nodes, bytes);
    return 0;
}

uint32_t wasi_c_report(wasi_sandbox *sandbox, wasi_sandbox empty, uint8_t *text, size_t room, size_t *len);

/// The report of the sandbox as it stands (docs/scripts.md), with no answers and no memory: 0, the text in front of
/// the room, and its length; or WASI_SHORT, and the length alone; or WASI_NO_MEMORY or WASI_EMPTY, and neither. Any
/// room of 0 bytes tells the length first; its pointer isn't null.
static inline uint32_t wasi_report(wasi_sandbox *sandbox, uint8_t *text, size_t room, size_t *len) {
    if (!sandbox->at) {
        return WASI_EMPTY;
    }
    return wasi_c_report(sandbox, wasi_nothing(), text, room, len);
}

/// A point in time: seconds from the epoch on, negative before it, and nanoseconds, below 1,000,000,000.
typedef struct {
    int64_t seconds;
    uint32_t nanoseconds;
} wasi_time;

/// A node of a tree, but for its bytes and its names.
typedef struct {
    /// How many names a file or a link has. A directory's are shown as 1.
    uint64_t links;
    /// How many bytes a file, or a link's text, has; 0 of a directory.
    uint64_t size;
    /// When it was read last, changed last, and made. No call but those that set times changes one.
    wasi_time atime, mtime, btime;
    /// Preview1's number of its type: 3 of a directory, 4 of a file, 7 of a link (`WASI_FILETYPE_` in names.h).
    uint32_t filetype;
    /// 1 of a directory that was removed, 0 of every other node.
    uint32_t removed;
} wasi_node_record;

uint32_t wasi_c_node(wasi_sandbox *sandbox, wasi_sandbox empty, uint64_t number, wasi_node_record *node);

/// The node of a number, as the report numbers them, in the sandbox's tree as it stands. 0, and the node; or
/// WASI_NO_NODE or WASI_EMPTY, and nothing is written. This and the four functions below only read: no node counts as
/// accessed, no call is counted, and all of the guest's stays. They answer alike with a base and without one, and after
/// the guest was stopped or ended.
static inline uint32_t wasi_node(wasi_sandbox *sandbox, uint64_t number, wasi_node_record *node) {
    if (!sandbox->at) {
        return WASI_EMPTY;
    }
    return wasi_c_node(sandbox, wasi_nothing(), number, node);
}

uint32_t wasi_c_read(wasi_sandbox *sandbox, wasi_sandbox empty, uint64_t number, uint64_t from, uint8_t *bytes,
        size_t room, size_t *len);

/// The bytes of a file, or of a link's text, from an offset in bytes on. 0, as many of them as there are and have room
/// in front of the room, and how many these are: 0 at or past the end. Or WASI_NO_NODE, WASI_DIRECTORY or WASI_EMPTY,
/// and nothing is written. The pointer isn't null, also where the room is 0.
static inline uint32_t wasi_read(wasi_sandbox *sandbox, uint64_t number, uint64_t from, uint8_t *bytes, size_t room,
        size_t *len) {
    if (!sandbox->at) {
        return WASI_EMPTY;
    }
    return wasi_c_read(sandbox, wasi_nothing(), number, from, bytes, room, len);
}

uint32_t wasi_c_entry(wasi_sandbox *sandbox, wasi_sandbox empty, uint64_t directory, const uint8_t *name,
        size_t name_len, uint64_t *number);

/// The number of the node that a directory holds under a name, which is UTF-8 without a 0 behind it. A path is followed
/// name by name; `.` and `..` are no names, and a link isn't followed. 0, and the number; or WASI_NO_NODE, where it holds
/// none or is no directory, or WASI_EMPTY, and nothing is written. The pointer isn't null, also where the length is 0.
static inline uint32_t wasi_entry(wasi_sandbox *sandbox, uint64_t directory, const uint8_t *name, size_t name_len,
        uint64_t *number) {
    if (!sandbox->at) {
        return WASI_EMPTY;
    }
    return wasi_c_entry(sandbox, wasi_nothing(), directory, name, name_len, number);
}

uint32_t wasi_c_entries(wasi_sandbox *sandbox, wasi_sandbox empty, uint64_t directory, uint8_t *text, size_t room,
        size_t *len);

/// The listing of a directory: all its names, in byte order. Each is its node's number in 8 bytes, little-endian and
/// not aligned, then the name, and then a 0, which no name has. What is no directory has no names. 0, the listing in
/// front of the room, and its length in bytes; or WASI_SHORT, and the length alone; or WASI_NO_MEMORY or WASI_EMPTY, and
/// neither. The pointer isn't null, also where the room is 0.
static inline uint32_t wasi_entries(wasi_sandbox *sandbox, uint64_t directory, uint8_t *text, size_t room,
        size_t *len) {
    if (!sandbox->at) {
        return WASI_EMPTY;
    }
    return wasi_c_entries(sandbox, wasi_nothing(), directory, text, room, len);
}

void wasi_c_output(wasi_sandbox *sandbox, wasi_sandbox empty, bool error, uint64_t from, uint8_t *bytes, size_t room,
        size_t *len, uint64_t *total);

/// What the guest wrote so far to the standard error, or to the standard output, from an offset in bytes on. 0, as many
/// bytes as there are and have room in front of the room, how many these are, 0 at or past the end, and how many were
/// written in all; or WASI_EMPTY, and none of these. The pointer isn't null, also where the room is 0.
static inline uint32_t wasi_output(wasi_sandbox *sandbox, bool error, uint64_t from, uint8_t *bytes, size_t room,
        size_t *len, uint64_t *total) {
    if (!sandbox->at) {
        return WASI_EMPTY;
    }
    wasi_c_output(sandbox, wasi_nothing(), error, from, bytes, room, len, total);
    return 0;
}

void wasi_c_end(wasi_sandbox *sandbox, wasi_sandbox empty);

/// Ends a sandbox, and leaves it empty. An empty one stays.
static inline void wasi_end(wasi_sandbox *sandbox) {
    if (sandbox->at) {
        wasi_c_end(sandbox, wasi_nothing());
    }
}

uint32_t wasi_c_call(wasi_sandbox *sandbox, wasi_sandbox empty, uint8_t *memory, size_t memory_len, uint32_t number,
        const uint64_t *words, size_t words_len);

/// The call of a number, from 0 on, as calls.h and the functions below number them. Its words are its arguments, and
/// behind them the addresses of its results; of a word for 32 bits the low 32 count, and the words behind the last
/// address count nothing. WASI_NO_CALL where no call has the number, or it wants more words, and then nothing changes.
/// The pointer to the words isn't null, also where there are none.
static inline uint32_t wasi_call(wasi_sandbox *sandbox, uint8_t *memory, size_t memory_len, uint32_t number,
        const uint64_t *words, size_t words_len) {
    if (!sandbox->at) {
        return WASI_EMPTY;
    }
    return wasi_c_call(sandbox, wasi_nothing(), memory, memory_len, number, words, words_len);
}

// What embed/write-calls writes, from here on.

/// Writes a pointer to each argument of the guest, and their texts, each with a 0 behind it.
static inline uint32_t wasi_args_get(wasi_sandbox *sandbox, uint8_t *memory, size_t memory_len, uint32_t argv,
        uint32_t argv_buf) {
    const uint64_t words[8] = {argv, argv_buf};
    return wasi_call(sandbox, memory, memory_len, 0, words, 8);
}

/// How many arguments there are, and how many bytes their texts have.
static inline uint32_t wasi_args_sizes_get(wasi_sandbox *sandbox, uint8_t *memory, size_t memory_len,
        uint32_t argc_at, uint32_t argv_buf_size_at) {
    const uint64_t words[8] = {argc_at, argv_buf_size_at};
    return wasi_call(sandbox, memory, memory_len, 1, words, 8);
}

/// Writes a pointer to each variable of the environment, and their texts, each with a 0 behind it.
static inline uint32_t wasi_environ_get(wasi_sandbox *sandbox, uint8_t *memory, size_t memory_len,
        uint32_t environ, uint32_t environ_buf) {
    const uint64_t words[8] = {environ, environ_buf};
    return wasi_call(sandbox, memory, memory_len, 2, words, 8);
}

/// How many variables the environment has, and how many bytes their texts have.
static inline uint32_t wasi_environ_sizes_get(wasi_sandbox *sandbox, uint8_t *memory, size_t memory_len,
        uint32_t environ_count_at, uint32_t environ_buf_size_at) {
    const uint64_t words[8] = {environ_count_at, environ_buf_size_at};
    return wasi_call(sandbox, memory, memory_len, 3, words, 8);
}

/// The resolution of a clock, in nanoseconds.
static inline uint32_t wasi_clock_res_get(wasi_sandbox *sandbox, uint8_t *memory, size_t memory_len,
        uint32_t id, uint32_t resolution_at) {
    const uint64_t words[8] = {id, resolution_at};
    return wasi_call(sandbox, memory, memory_len, 4, words, 8);
}

/// What a clock stands at, in nanoseconds.
static inline uint32_t wasi_clock_time_get(wasi_sandbox *sandbox, uint8_t *memory, size_t memory_len,
        uint32_t id, uint64_t precision, uint32_t time_at) {
    const uint64_t words[8] = {id, precision, time_at};
    return wasi_call(sandbox, memory, memory_len, 5, words, 8);
}

/// Says how a file will be used.
static inline uint32_t wasi_fd_advise(wasi_sandbox *sandbox, uint8_t *memory, size_t memory_len, uint32_t fd,
        uint64_t offset, uint64_t len, uint32_t advice) {
    const uint64_t words[8] = {fd, offset, len, advice};
    return wasi_call(sandbox, memory, memory_len, 6, words, 8);
}

/// Is refused: no room is made for a file beforehand.
static inline uint32_t wasi_fd_allocate(wasi_sandbox *sandbox, uint8_t *memory, size_t memory_len,
        uint32_t fd, uint64_t offset, uint64_t len) {
    const uint64_t words[8] = {fd, offset, len};
    return wasi_call(sandbox, memory, memory_len, 7, words, 8);
}

/// Closes a descriptor.
static inline uint32_t wasi_fd_close(wasi_sandbox *sandbox, uint8_t *memory, size_t memory_len, uint32_t fd) {
    const uint64_t words[8] = {fd};
    return wasi_call(sandbox, memory, memory_len, 8, words, 8);
}

/// Brings the bytes of a file to its store.
static inline uint32_t wasi_fd_datasync(wasi_sandbox *sandbox, uint8_t *memory, size_t memory_len,
        uint32_t fd) {
    const uint64_t words[8] = {fd};
    return wasi_call(sandbox, memory, memory_len, 9, words, 8);
}

/// Brings the bytes of a file and what is told of it to its store.
static inline uint32_t wasi_fd_sync(wasi_sandbox *sandbox, uint8_t *memory, size_t memory_len, uint32_t fd) {
    const uint64_t words[8] = {fd};
    return wasi_call(sandbox, memory, memory_len, 10, words, 8);
}

/// What is told of a descriptor: 24 bytes, aligned to 8.
static inline uint32_t wasi_fd_fdstat_get(wasi_sandbox *sandbox, uint8_t *memory, size_t memory_len,
        uint32_t fd, uint32_t stat_at) {
    const uint64_t words[8] = {fd, stat_at};
    return wasi_call(sandbox, memory, memory_len, 11, words, 8);
}

/// Sets how a file's descriptor is used.
static inline uint32_t wasi_fd_fdstat_set_flags(wasi_sandbox *sandbox, uint8_t *memory, size_t memory_len,
        uint32_t fd, uint32_t flags) {
    const uint64_t words[8] = {fd, flags};
    return wasi_call(sandbox, memory, memory_len, 12, words, 8);
}

/// Is refused: rights can't be set.
static inline uint32_t wasi_fd_fdstat_set_rights(wasi_sandbox *sandbox, uint8_t *memory, size_t memory_len,
        uint32_t fd, uint64_t base, uint64_t inheriting) {
    const uint64_t words[8] = {fd, base, inheriting};
    return wasi_call(sandbox, memory, memory_len, 13, words, 8);
}

/// What is told of the node of a descriptor: 64 bytes, aligned to 8.
static inline uint32_t wasi_fd_filestat_get(wasi_sandbox *sandbox, uint8_t *memory, size_t memory_len,
        uint32_t fd, uint32_t stat_at) {
    const uint64_t words[8] = {fd, stat_at};
    return wasi_call(sandbox, memory, memory_len, 14, words, 8);
}

/// Sets the size of a file, in bytes.
static inline uint32_t wasi_fd_filestat_set_size(wasi_sandbox *sandbox, uint8_t *memory, size_t memory_len,
        uint32_t fd, uint64_t size) {
    const uint64_t words[8] = {fd, size};
    return wasi_call(sandbox, memory, memory_len, 15, words, 8);
}

/// Sets the times of a descriptor's node, `atim` and `mtim` in nanoseconds from the epoch on.
static inline uint32_t wasi_fd_filestat_set_times(wasi_sandbox *sandbox, uint8_t *memory, size_t memory_len,
        uint32_t fd, uint64_t atim, uint64_t mtim, uint32_t fst_flags) {
    const uint64_t words[8] = {fd, atim, mtim, fst_flags};
    return wasi_call(sandbox, memory, memory_len, 16, words, 8);
}

/// Reads from a place of a file, an offset in bytes, into the first buffer that has bytes.
static inline uint32_t wasi_fd_pread(wasi_sandbox *sandbox, uint8_t *memory, size_t memory_len, uint32_t fd,
        uint32_t iovs, uint32_t iovs_len, uint64_t offset, uint32_t nread_at) {
    const uint64_t words[8] = {fd, iovs, iovs_len, offset, nread_at};
    return wasi_call(sandbox, memory, memory_len, 17, words, 8);
}

/// What is told of a directory that the guest was given: 8 bytes, aligned to 4.
static inline uint32_t wasi_fd_prestat_get(wasi_sandbox *sandbox, uint8_t *memory, size_t memory_len,
        uint32_t fd, uint32_t prestat_at) {
    const uint64_t words[8] = {fd, prestat_at};
    return wasi_call(sandbox, memory, memory_len, 18, words, 8);
}

/// Writes the name of a directory that the guest was given.
static inline uint32_t wasi_fd_prestat_dir_name(wasi_sandbox *sandbox, uint8_t *memory, size_t memory_len,
        uint32_t fd, uint32_t path, uint32_t path_len) {
    const uint64_t words[8] = {fd, path, path_len};
    return wasi_call(sandbox, memory, memory_len, 19, words, 8);
}

/// Writes the first buffer that has bytes to a place of a file, an offset in bytes.
static inline uint32_t wasi_fd_pwrite(wasi_sandbox *sandbox, uint8_t *memory, size_t memory_len, uint32_t fd,
        uint32_t iovs, uint32_t iovs_len, uint64_t offset, uint32_t nwritten_at) {
    const uint64_t words[8] = {fd, iovs, iovs_len, offset, nwritten_at};
    return wasi_call(sandbox, memory, memory_len, 20, words, 8);
}

/// Reads from a file or the standard input into the first buffer that has bytes.
static inline uint32_t wasi_fd_read(wasi_sandbox *sandbox, uint8_t *memory, size_t memory_len, uint32_t fd,
        uint32_t iovs, uint32_t iovs_len, uint32_t nread_at) {
    const uint64_t words[8] = {fd, iovs, iovs_len, nread_at};
    return wasi_call(sandbox, memory, memory_len, 21, words, 8);
}

/// Writes records of a directory's names, after as many as the cookie says.
static inline uint32_t wasi_fd_readdir(wasi_sandbox *sandbox, uint8_t *memory, size_t memory_len, uint32_t fd,
        uint32_t buf, uint32_t buf_len, uint64_t cookie, uint32_t used_at) {
    const uint64_t words[8] = {fd, buf, buf_len, cookie, used_at};
    return wasi_call(sandbox, memory, memory_len, 22, words, 8);
}

/// Gives a descriptor another's number, which is closed before.
static inline uint32_t wasi_fd_renumber(wasi_sandbox *sandbox, uint8_t *memory, size_t memory_len,
        uint32_t from, uint32_t to) {
    const uint64_t words[8] = {from, to};
    return wasi_call(sandbox, memory, memory_len, 23, words, 8);
}

/// Sets where the next read or write of a file begins, by an offset in bytes.
static inline uint32_t wasi_fd_seek(wasi_sandbox *sandbox, uint8_t *memory, size_t memory_len, uint32_t fd,
        int64_t offset, uint32_t whence, uint32_t position_at) {
    const uint64_t words[8] = {fd, (uint64_t)offset, whence, position_at};
    return wasi_call(sandbox, memory, memory_len, 24, words, 8);
}

/// Where the next read or write of a file begins, in bytes from the file's start.
static inline uint32_t wasi_fd_tell(wasi_sandbox *sandbox, uint8_t *memory, size_t memory_len, uint32_t fd,
        uint32_t position_at) {
    const uint64_t words[8] = {fd, position_at};
    return wasi_call(sandbox, memory, memory_len, 25, words, 8);
}

/// Writes the first buffer that has bytes to a file or an output.
static inline uint32_t wasi_fd_write(wasi_sandbox *sandbox, uint8_t *memory, size_t memory_len, uint32_t fd,
        uint32_t iovs, uint32_t iovs_len, uint32_t nwritten_at) {
    const uint64_t words[8] = {fd, iovs, iovs_len, nwritten_at};
    return wasi_call(sandbox, memory, memory_len, 26, words, 8);
}

/// Makes a directory.
static inline uint32_t wasi_path_create_directory(wasi_sandbox *sandbox, uint8_t *memory, size_t memory_len,
        uint32_t fd, uint32_t path, uint32_t path_len) {
    const uint64_t words[8] = {fd, path, path_len};
    return wasi_call(sandbox, memory, memory_len, 27, words, 8);
}

/// What is told of the node of a path: 64 bytes, aligned to 8.
static inline uint32_t wasi_path_filestat_get(wasi_sandbox *sandbox, uint8_t *memory, size_t memory_len,
        uint32_t fd, uint32_t flags, uint32_t path, uint32_t path_len, uint32_t stat_at) {
    const uint64_t words[8] = {fd, flags, path, path_len, stat_at};
    return wasi_call(sandbox, memory, memory_len, 28, words, 8);
}

/// Sets the times of a path's node, `atim` and `mtim` in nanoseconds from the epoch on.
static inline uint32_t wasi_path_filestat_set_times(wasi_sandbox *sandbox, uint8_t *memory, size_t memory_len,
        uint32_t fd, uint32_t flags, uint32_t path, uint32_t path_len, uint64_t atim, uint64_t mtim,
        uint32_t fst_flags) {
    const uint64_t words[8] = {fd, flags, path, path_len, atim, mtim, fst_flags};
    return wasi_call(sandbox, memory, memory_len, 29, words, 8);
}

/// Gives a file another name.
static inline uint32_t wasi_path_link(wasi_sandbox *sandbox, uint8_t *memory, size_t memory_len,
        uint32_t old_fd, uint32_t old_flags, uint32_t old_path, uint32_t old_path_len, uint32_t new_fd,
        uint32_t new_path, uint32_t new_path_len) {
    const uint64_t words[8] = {old_fd, old_flags, old_path, old_path_len, new_fd, new_path, new_path_len};
    return wasi_call(sandbox, memory, memory_len, 30, words, 8);
}

/// Opens a path under a new descriptor.
static inline uint32_t wasi_path_open(wasi_sandbox *sandbox, uint8_t *memory, size_t memory_len, uint32_t fd,
        uint32_t dirflags, uint32_t path, uint32_t path_len, uint32_t oflags, uint64_t base,
        uint64_t inheriting, uint32_t fdflags, uint32_t opened_fd_at) {
    const uint64_t words[9] = {fd, dirflags, path, path_len, oflags, base, inheriting, fdflags, opened_fd_at};
    return wasi_call(sandbox, memory, memory_len, 31, words, 9);
}

/// Writes the text of a link.
static inline uint32_t wasi_path_readlink(wasi_sandbox *sandbox, uint8_t *memory, size_t memory_len,
        uint32_t fd, uint32_t path, uint32_t path_len, uint32_t buf, uint32_t buf_len, uint32_t used_at) {
    const uint64_t words[8] = {fd, path, path_len, buf, buf_len, used_at};
    return wasi_call(sandbox, memory, memory_len, 32, words, 8);
}

/// Removes an empty directory.
static inline uint32_t wasi_path_remove_directory(wasi_sandbox *sandbox, uint8_t *memory, size_t memory_len,
        uint32_t fd, uint32_t path, uint32_t path_len) {
    const uint64_t words[8] = {fd, path, path_len};
    return wasi_call(sandbox, memory, memory_len, 33, words, 8);
}

/// Removes a name of a file or a link.
static inline uint32_t wasi_path_unlink_file(wasi_sandbox *sandbox, uint8_t *memory, size_t memory_len,
        uint32_t fd, uint32_t path, uint32_t path_len) {
    const uint64_t words[8] = {fd, path, path_len};
    return wasi_call(sandbox, memory, memory_len, 34, words, 8);
}

/// Moves a name.
static inline uint32_t wasi_path_rename(wasi_sandbox *sandbox, uint8_t *memory, size_t memory_len,
        uint32_t old_fd, uint32_t old_path, uint32_t old_path_len, uint32_t new_fd, uint32_t new_path,
        uint32_t new_path_len) {
    const uint64_t words[8] = {old_fd, old_path, old_path_len, new_fd, new_path, new_path_len};
    return wasi_call(sandbox, memory, memory_len, 35, words, 8);
}

/// Makes a link with the old path as its text.
static inline uint32_t wasi_path_symlink(wasi_sandbox *sandbox, uint8_t *memory, size_t memory_len,
        uint32_t old_path, uint32_t old_path_len, uint32_t fd, uint32_t new_path, uint32_t new_path_len) {
    const uint64_t words[8] = {old_path, old_path_len, fd, new_path, new_path_len};
    return wasi_call(sandbox, memory, memory_len, 36, words, 8);
}

/// Waits for one of the subscriptions, and writes the events of those that are ready.
static inline uint32_t wasi_poll_oneoff(wasi_sandbox *sandbox, uint8_t *memory, size_t memory_len,
        uint32_t subscriptions, uint32_t events, uint32_t count, uint32_t nevents_at) {
    const uint64_t words[8] = {subscriptions, events, count, nevents_at};
    return wasi_call(sandbox, memory, memory_len, 37, words, 8);
}

/// Ends the guest, with a status; one of 126 or more is a trap.
static inline uint32_t wasi_proc_exit(wasi_sandbox *sandbox, uint8_t *memory, size_t memory_len,
        uint32_t status) {
    const uint64_t words[8] = {status};
    return wasi_call(sandbox, memory, memory_len, 38, words, 8);
}

/// Is refused: no signal is raised.
static inline uint32_t wasi_proc_raise(wasi_sandbox *sandbox, uint8_t *memory, size_t memory_len,
        uint32_t signal) {
    const uint64_t words[8] = {signal};
    return wasi_call(sandbox, memory, memory_len, 39, words, 8);
}

/// Writes random bytes.
static inline uint32_t wasi_random_get(wasi_sandbox *sandbox, uint8_t *memory, size_t memory_len,
        uint32_t buf, uint32_t buf_len) {
    const uint64_t words[8] = {buf, buf_len};
    return wasi_call(sandbox, memory, memory_len, 40, words, 8);
}

/// Does nothing.
static inline uint32_t wasi_sched_yield(wasi_sandbox *sandbox, uint8_t *memory, size_t memory_len) {
    const uint64_t words[8] = {0};
    return wasi_call(sandbox, memory, memory_len, 41, words, 8);
}

/// Is refused: there are no sockets.
static inline uint32_t wasi_sock_accept(wasi_sandbox *sandbox, uint8_t *memory, size_t memory_len,
        uint32_t fd, uint32_t flags, uint32_t new_fd_at) {
    const uint64_t words[8] = {fd, flags, new_fd_at};
    return wasi_call(sandbox, memory, memory_len, 42, words, 8);
}

/// Is refused: there are no sockets.
static inline uint32_t wasi_sock_recv(wasi_sandbox *sandbox, uint8_t *memory, size_t memory_len, uint32_t fd,
        uint32_t iovs, uint32_t iovs_len, uint32_t ri_flags, uint32_t nread_at, uint32_t ro_flags_at) {
    const uint64_t words[8] = {fd, iovs, iovs_len, ri_flags, nread_at, ro_flags_at};
    return wasi_call(sandbox, memory, memory_len, 43, words, 8);
}

/// Is refused: there are no sockets.
static inline uint32_t wasi_sock_send(wasi_sandbox *sandbox, uint8_t *memory, size_t memory_len, uint32_t fd,
        uint32_t iovs, uint32_t iovs_len, uint32_t si_flags, uint32_t nsent_at) {
    const uint64_t words[8] = {fd, iovs, iovs_len, si_flags, nsent_at};
    return wasi_call(sandbox, memory, memory_len, 44, words, 8);
}

/// Is refused: there are no sockets.
static inline uint32_t wasi_sock_shutdown(wasi_sandbox *sandbox, uint8_t *memory, size_t memory_len,
        uint32_t fd, uint32_t how) {
    const uint64_t words[8] = {fd, how};
    return wasi_call(sandbox, memory, memory_len, 45, words, 8);
}

// What embed/write-calls writes, up to here.

#ifdef __cplusplus
}
#endif

#endif
