/// The imports of a guest that `wasm2c` (wabt 1.0.32) turned into C, by the functions of wasi.h. Include it in one
/// file, behind the guest's own header.
#ifndef WASI_WASM2C_H
#define WASI_WASM2C_H

#include "wasi.h"

/// What the guest's imports work on: a sandbox, and the guest's memory, which its engine owns and may let grow.
struct Z_wasi_snapshot_preview1_instance_t {
    wasi_sandbox sandbox;
    wasm_rt_memory_t *memory;
    /// How the guest ended: 0 while it runs, else a code from WASI_TRAP_POINTER on.
    uint32_t ended;
    /// What the guest gave `proc_exit`.
    uint32_t status;
};

static u32 wasi_answered_guest(struct Z_wasi_snapshot_preview1_instance_t *guest, uint32_t code) {
    if (wasi_ends_guest(code)) {
        guest->ended = code;
        wasm_rt_trap(WASM_RT_TRAP_UNREACHABLE);
    }
    return code;
}

// What embed/write-calls writes, from here on.

u32 Z_wasi_snapshot_preview1Z_args_get(struct Z_wasi_snapshot_preview1_instance_t *guest, u32 argv,
        u32 argv_buf) {
    return wasi_answered_guest(guest, wasi_args_get(&guest->sandbox, guest->memory->data, guest->memory->size,
        argv, argv_buf));
}

u32 Z_wasi_snapshot_preview1Z_args_sizes_get(struct Z_wasi_snapshot_preview1_instance_t *guest, u32 argc_at,
        u32 argv_buf_size_at) {
    return wasi_answered_guest(guest, wasi_args_sizes_get(&guest->sandbox, guest->memory->data,
        guest->memory->size, argc_at, argv_buf_size_at));
}

u32 Z_wasi_snapshot_preview1Z_environ_get(struct Z_wasi_snapshot_preview1_instance_t *guest, u32 environ,
        u32 environ_buf) {
    return wasi_answered_guest(guest, wasi_environ_get(&guest->sandbox, guest->memory->data,
        guest->memory->size, environ, environ_buf));
}

u32 Z_wasi_snapshot_preview1Z_environ_sizes_get(struct Z_wasi_snapshot_preview1_instance_t *guest,
        u32 environ_count_at, u32 environ_buf_size_at) {
    return wasi_answered_guest(guest, wasi_environ_sizes_get(&guest->sandbox, guest->memory->data,
        guest->memory->size, environ_count_at, environ_buf_size_at));
}

u32 Z_wasi_snapshot_preview1Z_clock_res_get(struct Z_wasi_snapshot_preview1_instance_t *guest, u32 id,
        u32 resolution_at) {
    return wasi_answered_guest(guest, wasi_clock_res_get(&guest->sandbox, guest->memory->data,
        guest->memory->size, id, resolution_at));
}

u32 Z_wasi_snapshot_preview1Z_clock_time_get(struct Z_wasi_snapshot_preview1_instance_t *guest, u32 id,
        u64 precision, u32 time_at) {
    return wasi_answered_guest(guest, wasi_clock_time_get(&guest->sandbox, guest->memory->data,
        guest->memory->size, id, precision, time_at));
}

u32 Z_wasi_snapshot_preview1Z_fd_advise(struct Z_wasi_snapshot_preview1_instance_t *guest, u32 fd, u64 offset,
        u64 len, u32 advice) {
    return wasi_answered_guest(guest, wasi_fd_advise(&guest->sandbox, guest->memory->data,
        guest->memory->size, fd, offset, len, advice));
}

u32 Z_wasi_snapshot_preview1Z_fd_allocate(struct Z_wasi_snapshot_preview1_instance_t *guest, u32 fd,
        u64 offset, u64 len) {
    return wasi_answered_guest(guest, wasi_fd_allocate(&guest->sandbox, guest->memory->data,
        guest->memory->size, fd, offset, len));
}

u32 Z_wasi_snapshot_preview1Z_fd_close(struct Z_wasi_snapshot_preview1_instance_t *guest, u32 fd) {
    return wasi_answered_guest(guest, wasi_fd_close(&guest->sandbox, guest->memory->data, guest->memory->size,
        fd));
}

u32 Z_wasi_snapshot_preview1Z_fd_datasync(struct Z_wasi_snapshot_preview1_instance_t *guest, u32 fd) {
    return wasi_answered_guest(guest, wasi_fd_datasync(&guest->sandbox, guest->memory->data,
        guest->memory->size, fd));
}

u32 Z_wasi_snapshot_preview1Z_fd_sync(struct Z_wasi_snapshot_preview1_instance_t *guest, u32 fd) {
    return wasi_answered_guest(guest, wasi_fd_sync(&guest->sandbox, guest->memory->data, guest->memory->size,
        fd));
}

u32 Z_wasi_snapshot_preview1Z_fd_fdstat_get(struct Z_wasi_snapshot_preview1_instance_t *guest, u32 fd,
        u32 stat_at) {
    return wasi_answered_guest(guest, wasi_fd_fdstat_get(&guest->sandbox, guest->memory->data,
        guest->memory->size, fd, stat_at));
}

u32 Z_wasi_snapshot_preview1Z_fd_fdstat_set_flags(struct Z_wasi_snapshot_preview1_instance_t *guest, u32 fd,
        u32 flags) {
    return wasi_answered_guest(guest, wasi_fd_fdstat_set_flags(&guest->sandbox, guest->memory->data,
        guest->memory->size, fd, flags));
}

u32 Z_wasi_snapshot_preview1Z_fd_fdstat_set_rights(struct Z_wasi_snapshot_preview1_instance_t *guest, u32 fd,
        u64 base, u64 inheriting) {
    return wasi_answered_guest(guest, wasi_fd_fdstat_set_rights(&guest->sandbox, guest->memory->data,
        guest->memory->size, fd, base, inheriting));
}

u32 Z_wasi_snapshot_preview1Z_fd_filestat_get(struct Z_wasi_snapshot_preview1_instance_t *guest, u32 fd,
        u32 stat_at) {
    return wasi_answered_guest(guest, wasi_fd_filestat_get(&guest->sandbox, guest->memory->data,
        guest->memory->size, fd, stat_at));
}

u32 Z_wasi_snapshot_preview1Z_fd_filestat_set_size(struct Z_wasi_snapshot_preview1_instance_t *guest, u32 fd,
        u64 size) {
    return wasi_answered_guest(guest, wasi_fd_filestat_set_size(&guest->sandbox, guest->memory->data,
        guest->memory->size, fd, size));
}

u32 Z_wasi_snapshot_preview1Z_fd_filestat_set_times(struct Z_wasi_snapshot_preview1_instance_t *guest, u32 fd,
        u64 atim, u64 mtim, u32 fst_flags) {
    return wasi_answered_guest(guest, wasi_fd_filestat_set_times(&guest->sandbox, guest->memory->data,
        guest->memory->size, fd, atim, mtim, fst_flags));
}

u32 Z_wasi_snapshot_preview1Z_fd_pread(struct Z_wasi_snapshot_preview1_instance_t *guest, u32 fd, u32 iovs,
        u32 iovs_len, u64 offset, u32 nread_at) {
    return wasi_answered_guest(guest, wasi_fd_pread(&guest->sandbox, guest->memory->data, guest->memory->size,
        fd, iovs, iovs_len, offset, nread_at));
}

u32 Z_wasi_snapshot_preview1Z_fd_prestat_get(struct Z_wasi_snapshot_preview1_instance_t *guest, u32 fd,
        u32 prestat_at) {
    return wasi_answered_guest(guest, wasi_fd_prestat_get(&guest->sandbox, guest->memory->data,
        guest->memory->size, fd, prestat_at));
}

u32 Z_wasi_snapshot_preview1Z_fd_prestat_dir_name(struct Z_wasi_snapshot_preview1_instance_t *guest, u32 fd,
        u32 path, u32 path_len) {
    return wasi_answered_guest(guest, wasi_fd_prestat_dir_name(&guest->sandbox, guest->memory->data,
        guest->memory->size, fd, path, path_len));
}

u32 Z_wasi_snapshot_preview1Z_fd_pwrite(struct Z_wasi_snapshot_preview1_instance_t *guest, u32 fd, u32 iovs,
        u32 iovs_len, u64 offset, u32 nwritten_at) {
    return wasi_answered_guest(guest, wasi_fd_pwrite(&guest->sandbox, guest->memory->data,
        guest->memory->size, fd, iovs, iovs_len, offset, nwritten_at));
}

u32 Z_wasi_snapshot_preview1Z_fd_read(struct Z_wasi_snapshot_preview1_instance_t *guest, u32 fd, u32 iovs,
        u32 iovs_len, u32 nread_at) {
    return wasi_answered_guest(guest, wasi_fd_read(&guest->sandbox, guest->memory->data, guest->memory->size,
        fd, iovs, iovs_len, nread_at));
}

u32 Z_wasi_snapshot_preview1Z_fd_readdir(struct Z_wasi_snapshot_preview1_instance_t *guest, u32 fd, u32 buf,
        u32 buf_len, u64 cookie, u32 used_at) {
    return wasi_answered_guest(guest, wasi_fd_readdir(&guest->sandbox, guest->memory->data,
        guest->memory->size, fd, buf, buf_len, cookie, used_at));
}

u32 Z_wasi_snapshot_preview1Z_fd_renumber(struct Z_wasi_snapshot_preview1_instance_t *guest, u32 from, u32 to)
        {
    return wasi_answered_guest(guest, wasi_fd_renumber(&guest->sandbox, guest->memory->data,
        guest->memory->size, from, to));
}

u32 Z_wasi_snapshot_preview1Z_fd_seek(struct Z_wasi_snapshot_preview1_instance_t *guest, u32 fd, u64 offset,
        u32 whence, u32 position_at) {
    return wasi_answered_guest(guest, wasi_fd_seek(&guest->sandbox, guest->memory->data, guest->memory->size,
        fd, (int64_t)offset, whence, position_at));
}

u32 Z_wasi_snapshot_preview1Z_fd_tell(struct Z_wasi_snapshot_preview1_instance_t *guest, u32 fd,
        u32 position_at) {
    return wasi_answered_guest(guest, wasi_fd_tell(&guest->sandbox, guest->memory->data, guest->memory->size,
        fd, position_at));
}

u32 Z_wasi_snapshot_preview1Z_fd_write(struct Z_wasi_snapshot_preview1_instance_t *guest, u32 fd, u32 iovs,
        u32 iovs_len, u32 nwritten_at) {
    return wasi_answered_guest(guest, wasi_fd_write(&guest->sandbox, guest->memory->data, guest->memory->size,
        fd, iovs, iovs_len, nwritten_at));
}

u32 Z_wasi_snapshot_preview1Z_path_create_directory(struct Z_wasi_snapshot_preview1_instance_t *guest, u32 fd,
        u32 path, u32 path_len) {
    return wasi_answered_guest(guest, wasi_path_create_directory(&guest->sandbox, guest->memory->data,
        guest->memory->size, fd, path, path_len));
}

u32 Z_wasi_snapshot_preview1Z_path_filestat_get(struct Z_wasi_snapshot_preview1_instance_t *guest, u32 fd,
        u32 flags, u32 path, u32 path_len, u32 stat_at) {
    return wasi_answered_guest(guest, wasi_path_filestat_get(&guest->sandbox, guest->memory->data,
        guest->memory->size, fd, flags, path, path_len, stat_at));
}

u32 Z_wasi_snapshot_preview1Z_path_filestat_set_times(struct Z_wasi_snapshot_preview1_instance_t *guest,
        u32 fd, u32 flags, u32 path, u32 path_len, u64 atim, u64 mtim, u32 fst_flags) {
    return wasi_answered_guest(guest, wasi_path_filestat_set_times(&guest->sandbox, guest->memory->data,
        guest->memory->size, fd, flags, path, path_len, atim, mtim, fst_flags));
}

u32 Z_wasi_snapshot_preview1Z_path_link(struct Z_wasi_snapshot_preview1_instance_t *guest, u32 old_fd,
        u32 old_flags, u32 old_path, u32 old_path_len, u32 new_fd, u32 new_path, u32 new_path_len) {
    return wasi_answered_guest(guest, wasi_path_link(&guest->sandbox, guest->memory->data,
        guest->memory->size, old_fd, old_flags, old_path, old_path_len, new_fd, new_path, new_path_len));
}

u32 Z_wasi_snapshot_preview1Z_path_open(struct Z_wasi_snapshot_preview1_instance_t *guest, u32 fd,
        u32 dirflags, u32 path, u32 path_len, u32 oflags, u64 base, u64 inheriting, u32 fdflags,
        u32 opened_fd_at) {
    return wasi_answered_guest(guest, wasi_path_open(&guest->sandbox, guest->memory->data,
        guest->memory->size, fd, dirflags, path, path_len, oflags, base, inheriting, fdflags, opened_fd_at));
}

u32 Z_wasi_snapshot_preview1Z_path_readlink(struct Z_wasi_snapshot_preview1_instance_t *guest, u32 fd,
        u32 path, u32 path_len, u32 buf, u32 buf_len, u32 used_at) {
    return wasi_answered_guest(guest, wasi_path_readlink(&guest->sandbox, guest->memory->data,
        guest->memory->size, fd, path, path_len, buf, buf_len, used_at));
}

u32 Z_wasi_snapshot_preview1Z_path_remove_directory(struct Z_wasi_snapshot_preview1_instance_t *guest, u32 fd,
        u32 path, u32 path_len) {
    return wasi_answered_guest(guest, wasi_path_remove_directory(&guest->sandbox, guest->memory->data,
        guest->memory->size, fd, path, path_len));
}

u32 Z_wasi_snapshot_preview1Z_path_unlink_file(struct Z_wasi_snapshot_preview1_instance_t *guest, u32 fd,
        u32 path, u32 path_len) {
    return wasi_answered_guest(guest, wasi_path_unlink_file(&guest->sandbox, guest->memory->data,
        guest->memory->size, fd, path, path_len));
}

u32 Z_wasi_snapshot_preview1Z_path_rename(struct Z_wasi_snapshot_preview1_instance_t *guest, u32 old_fd,
        u32 old_path, u32 old_path_len, u32 new_fd, u32 new_path, u32 new_path_len) {
    return wasi_answered_guest(guest, wasi_path_rename(&guest->sandbox, guest->memory->data,
        guest->memory->size, old_fd, old_path, old_path_len, new_fd, new_path, new_path_len));
}

u32 Z_wasi_snapshot_preview1Z_path_symlink(struct Z_wasi_snapshot_preview1_instance_t *guest, u32 old_path,
        u32 old_path_len, u32 fd, u32 new_path, u32 new_path_len) {
    return wasi_answered_guest(guest, wasi_path_symlink(&guest->sandbox, guest->memory->data,
        guest->memory->size, old_path, old_path_len, fd, new_path, new_path_len));
}

u32 Z_wasi_snapshot_preview1Z_poll_oneoff(struct Z_wasi_snapshot_preview1_instance_t *guest,
        u32 subscriptions, u32 events, u32 count, u32 nevents_at) {
    return wasi_answered_guest(guest, wasi_poll_oneoff(&guest->sandbox, guest->memory->data,
        guest->memory->size, subscriptions, events, count, nevents_at));
}

void Z_wasi_snapshot_preview1Z_proc_exit(struct Z_wasi_snapshot_preview1_instance_t *guest, u32 status) {
    guest->status = status;
    wasi_answered_guest(guest, wasi_proc_exit(&guest->sandbox, guest->memory->data, guest->memory->size,
        status));
}

u32 Z_wasi_snapshot_preview1Z_proc_raise(struct Z_wasi_snapshot_preview1_instance_t *guest, u32 signal) {
    return wasi_answered_guest(guest, wasi_proc_raise(&guest->sandbox, guest->memory->data,
        guest->memory->size, signal));
}

u32 Z_wasi_snapshot_preview1Z_random_get(struct Z_wasi_snapshot_preview1_instance_t *guest, u32 buf,
        u32 buf_len) {
    return wasi_answered_guest(guest, wasi_random_get(&guest->sandbox, guest->memory->data,
        guest->memory->size, buf, buf_len));
}

u32 Z_wasi_snapshot_preview1Z_sched_yield(struct Z_wasi_snapshot_preview1_instance_t *guest) {
    return wasi_answered_guest(guest, wasi_sched_yield(&guest->sandbox, guest->memory->data,
        guest->memory->size));
}

u32 Z_wasi_snapshot_preview1Z_sock_accept(struct Z_wasi_snapshot_preview1_instance_t *guest, u32 fd,
        u32 flags, u32 new_fd_at) {
    return wasi_answered_guest(guest, wasi_sock_accept(&guest->sandbox, guest->memory->data,
        guest->memory->size, fd, flags, new_fd_at));
}

u32 Z_wasi_snapshot_preview1Z_sock_recv(struct Z_wasi_snapshot_preview1_instance_t *guest, u32 fd, u32 iovs,
        u32 iovs_len, u32 ri_flags, u32 nread_at, u32 ro_flags_at) {
    return wasi_answered_guest(guest, wasi_sock_recv(&guest->sandbox, guest->memory->data,
        guest->memory->size, fd, iovs, iovs_len, ri_flags, nread_at, ro_flags_at));
}

u32 Z_wasi_snapshot_preview1Z_sock_send(struct Z_wasi_snapshot_preview1_instance_t *guest, u32 fd, u32 iovs,
        u32 iovs_len, u32 si_flags, u32 nsent_at) {
    return wasi_answered_guest(guest, wasi_sock_send(&guest->sandbox, guest->memory->data,
        guest->memory->size, fd, iovs, iovs_len, si_flags, nsent_at));
}

u32 Z_wasi_snapshot_preview1Z_sock_shutdown(struct Z_wasi_snapshot_preview1_instance_t *guest, u32 fd,
        u32 how) {
    return wasi_answered_guest(guest, wasi_sock_shutdown(&guest->sandbox, guest->memory->data,
        guest->memory->size, fd, how));
}

// What embed/write-calls writes, up to here.

#endif
