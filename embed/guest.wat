;; A guest that writes a file, reads it back, writes what it read to its standard output, and ends with the sum of all
;; error numbers.
(module
  (import "wasi_snapshot_preview1" "path_open"
    (func $path_open (param i32 i32 i32 i32 i32 i64 i64 i32 i32) (result i32)))
  (import "wasi_snapshot_preview1" "fd_write" (func $fd_write (param i32 i32 i32 i32) (result i32)))
  (import "wasi_snapshot_preview1" "fd_read" (func $fd_read (param i32 i32 i32 i32) (result i32)))
  (import "wasi_snapshot_preview1" "fd_filestat_get" (func $fd_filestat_get (param i32 i32) (result i32)))
  (import "wasi_snapshot_preview1" "fd_close" (func $fd_close (param i32) (result i32)))
  (import "wasi_snapshot_preview1" "proc_exit" (func $proc_exit (param i32)))
  (memory (export "memory") 1)
  (data (i32.const 400) "note.txt")
  (data (i32.const 200) "hello, tree\n")

  ;; the record of a buffer stands at 0, what opens answer at 16, counts at 24, and what is told of a node at 64 to 127
  (func $buffer (param $at i32) (param $len i32)
    (i32.store (i32.const 0) (local.get $at))
    (i32.store (i32.const 4) (local.get $len)))

  (func $open (param $oflags i32) (param $rights i64) (result i32)
    (call $path_open (i32.const 3) (i32.const 0) (i32.const 400) (i32.const 8) (local.get $oflags)
      (local.get $rights) (i64.const 0) (i32.const 0) (i32.const 16)))

  (func (export "_start")
    (local $errors i32)
    (local.set $errors (call $open (i32.const 1) (i64.const 64)))
    (call $buffer (i32.const 200) (i32.const 12))
    (local.set $errors (i32.add (local.get $errors)
      (call $fd_write (i32.load (i32.const 16)) (i32.const 0) (i32.const 1) (i32.const 24))))
    (local.set $errors (i32.add (local.get $errors)
      (call $fd_filestat_get (i32.load (i32.const 16)) (i32.const 64))))
    (local.set $errors (i32.add (local.get $errors) (call $fd_close (i32.load (i32.const 16)))))
    (local.set $errors (i32.add (local.get $errors) (call $open (i32.const 0) (i64.const 2))))
    (call $buffer (i32.const 300) (i32.wrap_i64 (i64.load (i32.const 96))))
    (local.set $errors (i32.add (local.get $errors)
      (call $fd_read (i32.load (i32.const 16)) (i32.const 0) (i32.const 1) (i32.const 24))))
    (local.set $errors (i32.add (local.get $errors) (call $fd_close (i32.load (i32.const 16)))))
    (call $buffer (i32.const 300) (i32.load (i32.const 24)))
    (local.set $errors (i32.add (local.get $errors)
      (call $fd_write (i32.const 1) (i32.const 0) (i32.const 1) (i32.const 24))))
    (call $proc_exit (local.get $errors))))
