//! The calls of preview1, by their numbers in the table of `embed/zurgwenad/calls.h`.

use crate::{Sandbox, Stop};

// What embed/write-calls writes, from here on.
calls! {
    /// Writes a pointer to each argument of the guest, and their texts, each with a 0 behind it.
    0 => args_get(argv: u32, argv_buf: u32);
    /// How many arguments there are, and how many bytes their texts have.
    1 => args_sizes_get(argc_at: u32, argv_buf_size_at: u32);
    /// Writes a pointer to each variable of the environment, and their texts, each with a 0 behind it.
    2 => environ_get(environ: u32, environ_buf: u32);
    /// How many variables the environment has, and how many bytes their texts have.
    3 => environ_sizes_get(environ_count_at: u32, environ_buf_size_at: u32);
    /// The resolution of a clock, in nanoseconds.
    4 => clock_res_get(id: u32, resolution_at: u32);
    /// What a clock stands at, in nanoseconds.
    5 => clock_time_get(id: u32, precision: u64, time_at: u32);
    /// Says how a file will be used.
    6 => fd_advise(fd: u32, offset: u64, len: u64, advice: u32);
    /// Is refused: no room is made for a file beforehand.
    7 => fd_allocate(fd: u32, offset: u64, len: u64);
    /// Closes a descriptor.
    8 => fd_close(fd: u32);
    /// Brings the bytes of a file to its store.
    9 => fd_datasync(fd: u32);
    /// Brings the bytes of a file and what is told of it to its store.
    10 => fd_sync(fd: u32);
    /// What is told of a descriptor: 24 bytes, aligned to 8.
    11 => fd_fdstat_get(fd: u32, stat_at: u32);
    /// Sets how a file's descriptor is used.
    12 => fd_fdstat_set_flags(fd: u32, flags: u32);
    /// Is refused: rights can't be set.
    13 => fd_fdstat_set_rights(fd: u32, base: u64, inheriting: u64);
    /// What is told of the node of a descriptor: 64 bytes, aligned to 8.
    14 => fd_filestat_get(fd: u32, stat_at: u32);
    /// Sets the size of a file, in bytes.
    15 => fd_filestat_set_size(fd: u32, size: u64);
    /// Sets the times of a descriptor's node, `atim` and `mtim` in nanoseconds from the epoch on.
    16 => fd_filestat_set_times(fd: u32, atim: u64, mtim: u64, fst_flags: u32);
    /// Reads from a place of a file, an offset in bytes, into the first buffer that has bytes.
    17 => fd_pread(fd: u32, iovs: u32, iovs_len: u32, offset: u64, nread_at: u32);
    /// What is told of a directory that the guest was given: 8 bytes, aligned to 4.
    18 => fd_prestat_get(fd: u32, prestat_at: u32);
    /// Writes the name of a directory that the guest was given.
    19 => fd_prestat_dir_name(fd: u32, path: u32, path_len: u32);
    /// Writes the first buffer that has bytes to a place of a file, an offset in bytes.
    20 => fd_pwrite(fd: u32, iovs: u32, iovs_len: u32, offset: u64, nwritten_at: u32);
    /// Reads from a file or the standard input into the first buffer that has bytes.
    21 => fd_read(fd: u32, iovs: u32, iovs_len: u32, nread_at: u32);
    /// Writes records of a directory's names, after as many as the cookie says.
    22 => fd_readdir(fd: u32, buf: u32, buf_len: u32, cookie: u64, used_at: u32);
    /// Gives a descriptor another's number, which is closed before.
    23 => fd_renumber(from: u32, to: u32);
    /// Sets where the next read or write of a file begins, by an offset in bytes.
    24 => fd_seek(fd: u32, offset: i64, whence: u32, position_at: u32);
    /// Where the next read or write of a file begins, in bytes from the file's start.
    25 => fd_tell(fd: u32, position_at: u32);
    /// Writes the first buffer that has bytes to a file or an output.
    26 => fd_write(fd: u32, iovs: u32, iovs_len: u32, nwritten_at: u32);
    /// Makes a directory.
    27 => path_create_directory(fd: u32, path: u32, path_len: u32);
    /// What is told of the node of a path: 64 bytes, aligned to 8.
    28 => path_filestat_get(fd: u32, flags: u32, path: u32, path_len: u32, stat_at: u32);
    /// Sets the times of a path's node, `atim` and `mtim` in nanoseconds from the epoch on.
    29 => path_filestat_set_times(fd: u32, flags: u32, path: u32, path_len: u32, atim: u64, mtim: u64,
        fst_flags: u32);
    /// Gives a file another name.
    30 => path_link(old_fd: u32, old_flags: u32, old_path: u32, old_path_len: u32, new_fd: u32, new_path: u32,
        new_path_len: u32);
    /// Opens a path under a new descriptor.
    31 => path_open(fd: u32, dirflags: u32, path: u32, path_len: u32, oflags: u32, base: u64, inheriting: u64,
        fdflags: u32, opened_fd_at: u32);
    /// Writes the text of a link.
    32 => path_readlink(fd: u32, path: u32, path_len: u32, buf: u32, buf_len: u32, used_at: u32);
    /// Removes an empty directory.
    33 => path_remove_directory(fd: u32, path: u32, path_len: u32);
    /// Removes a name of a file or a link.
    34 => path_unlink_file(fd: u32, path: u32, path_len: u32);
    /// Moves a name.
    35 => path_rename(old_fd: u32, old_path: u32, old_path_len: u32, new_fd: u32, new_path: u32,
        new_path_len: u32);
    /// Makes a link with the old path as its text.
    36 => path_symlink(old_path: u32, old_path_len: u32, fd: u32, new_path: u32, new_path_len: u32);
    /// Waits for one of the subscriptions, and writes the events of those that are ready.
    37 => poll_oneoff(subscriptions: u32, events: u32, count: u32, nevents_at: u32);
    /// Ends the guest, with a status; one of 126 or more is a trap.
    38 => proc_exit(status: u32);
    /// Is refused: no signal is raised.
    39 => proc_raise(signal: u32);
    /// Writes random bytes.
    40 => random_get(buf: u32, buf_len: u32);
    /// Does nothing.
    41 => sched_yield();
    /// Is refused: there are no sockets.
    42 => sock_accept(fd: u32, flags: u32, new_fd_at: u32);
    /// Is refused: there are no sockets.
    43 => sock_recv(fd: u32, iovs: u32, iovs_len: u32, ri_flags: u32, nread_at: u32, ro_flags_at: u32);
    /// Is refused: there are no sockets.
    44 => sock_send(fd: u32, iovs: u32, iovs_len: u32, si_flags: u32, nsent_at: u32);
    /// Is refused: there are no sockets.
    45 => sock_shutdown(fd: u32, how: u32);
}
// What embed/write-calls writes, up to here.
