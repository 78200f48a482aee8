/// The numbers of `wasi_snapshot_preview1` by their names, and a text for each answer of wasi.h. Plain C99, which
/// embed/write-names writes.
#ifndef ZURGWENAD_NAMES_H
#define ZURGWENAD_NAMES_H

#include <stdint.h>

#ifdef __cplusplus
extern "C" {
#endif

/// The error numbers.
enum {
    /// No error.
    WASI_ERRNO_SUCCESS = 0,
    /// The argument list is too long.
    WASI_ERRNO_2BIG = 1,
    /// Permission is denied.
    WASI_ERRNO_ACCES = 2,
    /// The address is in use.
    WASI_ERRNO_ADDRINUSE = 3,
    /// The address isn't available.
    WASI_ERRNO_ADDRNOTAVAIL = 4,
    /// The address family isn't supported.
    WASI_ERRNO_AFNOSUPPORT = 5,
    /// The resource isn't there now; try again.
    WASI_ERRNO_AGAIN = 6,
    /// A connection is being made already.
    WASI_ERRNO_ALREADY = 7,
    /// The descriptor isn't open, or isn't of the right kind.
    WASI_ERRNO_BADF = 8,
    /// Bad message.
    WASI_ERRNO_BADMSG = 9,
    /// The device or resource is busy.
    WASI_ERRNO_BUSY = 10,
    /// The operation was canceled.
    WASI_ERRNO_CANCELED = 11,
    /// There are no child processes.
    WASI_ERRNO_CHILD = 12,
    /// The connection was aborted.
    WASI_ERRNO_CONNABORTED = 13,
    /// The connection was refused.
    WASI_ERRNO_CONNREFUSED = 14,
    /// The connection was reset.
    WASI_ERRNO_CONNRESET = 15,
    /// A deadlock would come of it.
    WASI_ERRNO_DEADLK = 16,
    /// A destination address is wanted.
    WASI_ERRNO_DESTADDRREQ = 17,
    /// An argument is out of the function's domain.
    WASI_ERRNO_DOM = 18,
    /// The quota is used up.
    WASI_ERRNO_DQUOT = 19,
    /// There is something of this name already.
    WASI_ERRNO_EXIST = 20,
    /// Bad address.
    WASI_ERRNO_FAULT = 21,
    /// The file would be too large.
    WASI_ERRNO_FBIG = 22,
    /// The host isn't reachable.
    WASI_ERRNO_HOSTUNREACH = 23,
    /// The identifier was removed.
    WASI_ERRNO_IDRM = 24,
    /// The text isn't UTF-8.
    WASI_ERRNO_ILSEQ = 25,
    /// It is being done already.
    WASI_ERRNO_INPROGRESS = 26,
    /// Interrupted.
    WASI_ERRNO_INTR = 27,
    /// An argument isn't valid.
    WASI_ERRNO_INVAL = 28,
    /// Input or output failed.
    WASI_ERRNO_IO = 29,
    /// The socket is connected.
    WASI_ERRNO_ISCONN = 30,
    /// It is a directory.
    WASI_ERRNO_ISDIR = 31,
    /// A link that isn't followed, or too many links.
    WASI_ERRNO_LOOP = 32,
    /// Too many open files.
    WASI_ERRNO_MFILE = 33,
    /// Too many names of one node.
    WASI_ERRNO_MLINK = 34,
    /// The message is too large.
    WASI_ERRNO_MSGSIZE = 35,
    /// Multihop was tried.
    WASI_ERRNO_MULTIHOP = 36,
    /// The name is too long.
    WASI_ERRNO_NAMETOOLONG = 37,
    /// The network is down.
    WASI_ERRNO_NETDOWN = 38,
    /// The connection was aborted by the network.
    WASI_ERRNO_NETRESET = 39,
    /// The network isn't reachable.
    WASI_ERRNO_NETUNREACH = 40,
    /// Too many open files in the system.
    WASI_ERRNO_NFILE = 41,
    /// There is no buffer space.
    WASI_ERRNO_NOBUFS = 42,
    /// No such device.
    WASI_ERRNO_NODEV = 43,
    /// There is nothing of this name.
    WASI_ERRNO_NOENT = 44,
    /// Not an executable file.
    WASI_ERRNO_NOEXEC = 45,
    /// No locks are left.
    WASI_ERRNO_NOLCK = 46,
    /// The link was severed.
    WASI_ERRNO_NOLINK = 47,
    /// There isn't enough memory, or fuel.
    WASI_ERRNO_NOMEM = 48,
    /// No message of this type.
    WASI_ERRNO_NOMSG = 49,
    /// The protocol isn't available.
    WASI_ERRNO_NOPROTOOPT = 50,
    /// There is no space left.
    WASI_ERRNO_NOSPC = 51,
    /// The function isn't supported.
    WASI_ERRNO_NOSYS = 52,
    /// The socket isn't connected.
    WASI_ERRNO_NOTCONN = 53,
    /// It isn't a directory.
    WASI_ERRNO_NOTDIR = 54,
    /// The directory isn't empty.
    WASI_ERRNO_NOTEMPTY = 55,
    /// The state can't be recovered.
    WASI_ERRNO_NOTRECOVERABLE = 56,
    /// It isn't a socket.
    WASI_ERRNO_NOTSOCK = 57,
    /// It isn't supported.
    WASI_ERRNO_NOTSUP = 58,
    /// It isn't a terminal.
    WASI_ERRNO_NOTTY = 59,
    /// No such device or address.
    WASI_ERRNO_NXIO = 60,
    /// The number doesn't fit.
    WASI_ERRNO_OVERFLOW = 61,
    /// The previous owner died.
    WASI_ERRNO_OWNERDEAD = 62,
    /// It isn't permitted.
    WASI_ERRNO_PERM = 63,
    /// The pipe is broken.
    WASI_ERRNO_PIPE = 64,
    /// A protocol error.
    WASI_ERRNO_PROTO = 65,
    /// The protocol isn't supported.
    WASI_ERRNO_PROTONOSUPPORT = 66,
    /// The socket's protocol is of the wrong type.
    WASI_ERRNO_PROTOTYPE = 67,
    /// The result is too large.
    WASI_ERRNO_RANGE = 68,
    /// The file system is read-only.
    WASI_ERRNO_ROFS = 69,
    /// A stream has no position.
    WASI_ERRNO_SPIPE = 70,
    /// No such process.
    WASI_ERRNO_SRCH = 71,
    /// The file handle is stale.
    WASI_ERRNO_STALE = 72,
    /// It timed out.
    WASI_ERRNO_TIMEDOUT = 73,
    /// The file is being executed.
    WASI_ERRNO_TXTBSY = 74,
    /// The two are on different devices.
    WASI_ERRNO_XDEV = 75,
    /// A right is missing.
    WASI_ERRNO_NOTCAPABLE = 76
};

/// What a descriptor may be used for, as `fd_fdstat_get` tells it and `path_open` takes it.
enum {
    WASI_RIGHTS_FD_DATASYNC = 1 << 0,
    WASI_RIGHTS_FD_READ = 1 << 1,
    WASI_RIGHTS_FD_SEEK = 1 << 2,
    WASI_RIGHTS_FD_FDSTAT_SET_FLAGS = 1 << 3,
    WASI_RIGHTS_FD_SYNC = 1 << 4,
    WASI_RIGHTS_FD_TELL = 1 << 5,
    WASI_RIGHTS_FD_WRITE = 1 << 6,
    WASI_RIGHTS_FD_ADVISE = 1 << 7,
    WASI_RIGHTS_FD_ALLOCATE = 1 << 8,
    WASI_RIGHTS_PATH_CREATE_DIRECTORY = 1 << 9,
    WASI_RIGHTS_PATH_CREATE_FILE = 1 << 10,
    WASI_RIGHTS_PATH_LINK_SOURCE = 1 << 11,
    WASI_RIGHTS_PATH_LINK_TARGET = 1 << 12,
    WASI_RIGHTS_PATH_OPEN = 1 << 13,
    WASI_RIGHTS_FD_READDIR = 1 << 14,
    WASI_RIGHTS_PATH_READLINK = 1 << 15,
    WASI_RIGHTS_PATH_RENAME_SOURCE = 1 << 16,
    WASI_RIGHTS_PATH_RENAME_TARGET = 1 << 17,
    WASI_RIGHTS_PATH_FILESTAT_GET = 1 << 18,
    WASI_RIGHTS_PATH_FILESTAT_SET_SIZE = 1 << 19,
    WASI_RIGHTS_PATH_FILESTAT_SET_TIMES = 1 << 20,
    WASI_RIGHTS_FD_FILESTAT_GET = 1 << 21,
    WASI_RIGHTS_FD_FILESTAT_SET_SIZE = 1 << 22,
    WASI_RIGHTS_FD_FILESTAT_SET_TIMES = 1 << 23,
    WASI_RIGHTS_PATH_SYMLINK = 1 << 24,
    WASI_RIGHTS_PATH_REMOVE_DIRECTORY = 1 << 25,
    WASI_RIGHTS_PATH_UNLINK_FILE = 1 << 26,
    WASI_RIGHTS_POLL_FD_READWRITE = 1 << 27,
    WASI_RIGHTS_SOCK_SHUTDOWN = 1 << 28,
    WASI_RIGHTS_SOCK_ACCEPT = 1 << 29
};

/// How a file's descriptor is used.
enum {
    WASI_FDFLAGS_APPEND = 1 << 0,
    WASI_FDFLAGS_DSYNC = 1 << 1,
    WASI_FDFLAGS_NONBLOCK = 1 << 2,
    WASI_FDFLAGS_RSYNC = 1 << 3,
    WASI_FDFLAGS_SYNC = 1 << 4
};

/// How `path_open` opens.
enum {
    WASI_OFLAGS_CREAT = 1 << 0,
    WASI_OFLAGS_DIRECTORY = 1 << 1,
    WASI_OFLAGS_EXCL = 1 << 2,
    WASI_OFLAGS_TRUNC = 1 << 3
};

/// How a path is looked up.
enum {
    WASI_LOOKUPFLAGS_SYMLINK_FOLLOW = 1 << 0
};

/// Which times are set, and to what.
enum {
    WASI_FSTFLAGS_ATIM = 1 << 0,
    WASI_FSTFLAGS_ATIM_NOW = 1 << 1,
    WASI_FSTFLAGS_MTIM = 1 << 2,
    WASI_FSTFLAGS_MTIM_NOW = 1 << 3
};

/// What a clock's subscription waits for.
enum {
    WASI_SUBCLOCKFLAGS_ABSTIME = 1 << 0
};

/// How `sock_recv` would receive.
enum {
    WASI_RIFLAGS_RECV_PEEK = 1 << 0,
    WASI_RIFLAGS_RECV_WAITALL = 1 << 1
};

/// Which ways of a socket would be shut.
enum {
    WASI_SDFLAGS_RD = 1 << 0,
    WASI_SDFLAGS_WR = 1 << 1
};

/// From where `fd_seek` counts.
enum {
    WASI_WHENCE_SET = 0,
    WASI_WHENCE_CUR = 1,
    WASI_WHENCE_END = 2
};

/// The clocks.
enum {
    WASI_CLOCKID_REALTIME = 0,
    WASI_CLOCKID_MONOTONIC = 1,
    WASI_CLOCKID_PROCESS_CPUTIME_ID = 2,
    WASI_CLOCKID_THREAD_CPUTIME_ID = 3
};

/// How a file will be used.
enum {
    WASI_ADVICE_NORMAL = 0,
    WASI_ADVICE_SEQUENTIAL = 1,
    WASI_ADVICE_RANDOM = 2,
    WASI_ADVICE_WILLNEED = 3,
    WASI_ADVICE_DONTNEED = 4,
    WASI_ADVICE_NOREUSE = 5
};

/// What a subscription is of.
enum {
    WASI_EVENTTYPE_CLOCK = 0,
    WASI_EVENTTYPE_FD_READ = 1,
    WASI_EVENTTYPE_FD_WRITE = 2
};

/// What a node is.
enum {
    WASI_FILETYPE_UNKNOWN = 0,
    WASI_FILETYPE_BLOCK_DEVICE = 1,
    WASI_FILETYPE_CHARACTER_DEVICE = 2,
    WASI_FILETYPE_DIRECTORY = 3,
    WASI_FILETYPE_REGULAR_FILE = 4,
    WASI_FILETYPE_SOCKET_DGRAM = 5,
    WASI_FILETYPE_SOCKET_STREAM = 6,
    WASI_FILETYPE_SYMBOLIC_LINK = 7
};

/// What an answer of wasi.h says, in a few words: an error number's name stands in front. It is never NULL.
static inline const char *wasi_code_text(uint32_t code) {
    switch (code) {
    case 0:
        return "success: no error";
    case 1:
        return "2big: the argument list is too long";
    case 2:
        return "acces: permission is denied";
    case 3:
        return "addrinuse: the address is in use";
    case 4:
        return "addrnotavail: the address isn't available";
    case 5:
        return "afnosupport: the address family isn't supported";
    case 6:
        return "again: the resource isn't there now; try again";
    case 7:
        return "already: a connection is being made already";
    case 8:
        return "badf: the descriptor isn't open, or isn't of the right kind";
    case 9:
        return "badmsg: bad message";
    case 10:
        return "busy: the device or resource is busy";
    case 11:
        return "canceled: the operation was canceled";
    case 12:
        return "child: there are no child processes";
    case 13:
        return "connaborted: the connection was aborted";
    case 14:
        return "connrefused: the connection was refused";
    case 15:
        return "connreset: the connection was reset";
    case 16:
        return "deadlk: a deadlock would come of it";
    case 17:
        return "destaddrreq: a destination address is wanted";
    case 18:
        return "dom: an argument is out of the function's domain";
    case 19:
        return "dquot: the quota is used up";
    case 20:
        return "exist: there is something of this name already";
    case 21:
        return "fault: bad address";
    case 22:
        return "fbig: the file would be too large";
    case 23:
        return "hostunreach: the host isn't reachable";
    case 24:
        return "idrm: the identifier was removed";
    case 25:
        return "ilseq: the text isn't UTF-8";
    case 26:
        return "inprogress: it is being done already";
    case 27:
        return "intr: interrupted";
    case 28:
        return "inval: an argument isn't valid";
    case 29:
        return "io: input or output failed";
    case 30:
        return "isconn: the socket is connected";
    case 31:
        return "isdir: it is a directory";
    case 32:
        return "loop: a link that isn't followed, or too many links";
    case 33:
        return "mfile: too many open files";
    case 34:
        return "mlink: too many names of one node";
    case 35:
        return "msgsize: the message is too large";
    case 36:
        return "multihop: multihop was tried";
    case 37:
        return "nametoolong: the name is too long";
    case 38:
        return "netdown: the network is down";
    case 39:
        return "netreset: the connection was aborted by the network";
    case 40:
        return "netunreach: the network isn't reachable";
    case 41:
        return "nfile: too many open files in the system";
    case 42:
        return "nobufs: there is no buffer space";
    case 43:
        return "nodev: no such device";
    case 44:
        return "noent: there is nothing of this name";
    case 45:
        return "noexec: not an executable file";
    case 46:
        return "nolck: no locks are left";
    case 47:
        return "nolink: the link was severed";
    case 48:
        return "nomem: there isn't enough memory, or fuel";
    case 49:
        return "nomsg: no message of this type";
    case 50:
        return "noprotoopt: the protocol isn't available";
    case 51:
        return "nospc: there is no space left";
    case 52:
        return "nosys: the function isn't supported";
    case 53:
        return "notconn: the socket isn't connected";
    case 54:
        return "notdir: it isn't a directory";
    case 55:
        return "notempty: the directory isn't empty";
    case 56:
        return "notrecoverable: the state can't be recovered";
    case 57:
        return "notsock: it isn't a socket";
    case 58:
        return "notsup: it isn't supported";
    case 59:
        return "notty: it isn't a terminal";
    case 60:
        return "nxio: no such device or address";
    case 61:
        return "overflow: the number doesn't fit";
    case 62:
        return "ownerdead: the previous owner died";
    case 63:
        return "perm: it isn't permitted";
    case 64:
        return "pipe: the pipe is broken";
    case 65:
        return "proto: a protocol error";
    case 66:
        return "protonosupport: the protocol isn't supported";
    case 67:
        return "prototype: the socket's protocol is of the wrong type";
    case 68:
        return "range: the result is too large";
    case 69:
        return "rofs: the file system is read-only";
    case 70:
        return "spipe: a stream has no position";
    case 71:
        return "srch: no such process";
    case 72:
        return "stale: the file handle is stale";
    case 73:
        return "timedout: it timed out";
    case 74:
        return "txtbsy: the file is being executed";
    case 75:
        return "xdev: the two are on different devices";
    case 76:
        return "notcapable: a right is missing";
    case 256:
        return "the guest gave an address outside its memory, or one that isn't aligned";
    case 257:
        return "there would be more descriptors than the script's table has room for";
    case 258:
        return "the guest ended with a status of 126 or more";
    case 259:
        return "the guest ended, with the status that it gave `proc_exit`";
    case 260:
        return "memory was wanted";
    case 261:
        return "the sandbox is empty";
    case 262:
        return "the report, or the listing, is longer than the room for it";
    case 263:
        return "the sandbox, or the base, isn't empty";
    case 264:
        return "there is no base";
    case 270:
        return "the script has more than 16,777,216 bytes";
    case 271:
        return "the script isn't JSON";
    case 272:
        return "the script is JSON, and isn't of a script's shape";
    case 273:
        return "the script's nodes are no tree";
    case 274:
        return "the script passes a limit";
    case 275:
        return "the script has calls, a memory, or ranges of it to be shown";
    case 276:
        return "the script of a sandbox over a base has nodes or limits of its own";
    case 277:
        return "the sandbox stands over no base";
    case 278:
        return "no call has the number, or it wants more words than there are";
    case 279:
        return "no node has the number, or the directory holds none under the name";
    case 280:
        return "the node is a directory, which has no bytes";
    default:
        return "no answer has this number";
    }
}

#ifdef __cplusplus
}
#endif

#endif
