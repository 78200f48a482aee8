//! A sandbox of the proved calls of `wasi_snapshot_preview1`, over a tree of files in memory: the functions of
//! `embed/zurgwenad/wasi.h` behind a type that keeps what they ask of their caller. A sandbox is one value that nobody copies; a
//! call borrows it and the guest's memory alone; and a guest that was stopped calls nothing more.
//!
//! `docs/embedding.md` says what is proved, and what isn't: this file isn't.

use std::fmt;
use std::ptr;

/// What the C functions take by their address; all zeros is the empty sandbox.
#[repr(C)]
struct Raw {
    at: *mut u8,
}

/// The empty sandbox, which the library puts in the place of the one that it works on.
fn nothing() -> Raw {
    Raw { at: ptr::null_mut() }
}

const SHORT: u32 = 262;
const ALONE: u32 = 277;
const DIRECTORY: u32 = 280;

/// Asks for what a function writes in front of some room, and with as much room as it needs where that was too little.
fn with_room<T: Clone + Default>(
    room: usize,
    mut ask: impl FnMut(*mut T, usize, &mut usize) -> u32,
) -> Result<Vec<T>, u32> {
    let (mut told, mut len) = (vec![T::default(); room], 0);
    loop {
        match ask(told.as_mut_ptr(), told.len(), &mut len) {
            0 => {
                told.truncate(len);
                return Ok(told);
            }
            SHORT => told.resize(len, T::default()),
            code => return Err(code),
        }
    }
}

/// Why a guest was stopped, or that it ended.
#[derive(Clone, Copy, Debug, PartialEq, Eq)]
pub enum Stop {
    /// It gave an address outside its memory, or one that isn't aligned.
    Pointer,
    /// There would be more descriptors than the script's table has room for.
    Table,
    /// It ended with a status of 126 or more.
    Exit,
    /// It ended, with the status that it gave `proc_exit`.
    Ended,
    /// Memory was wanted.
    Memory,
    /// The library answered a number that this crate doesn't know.
    Unknown(u32),
}

impl Stop {
    fn of(code: u32) -> Stop {
        match code {
            256 => Stop::Pointer,
            257 => Stop::Table,
            258 => Stop::Exit,
            259 => Stop::Ended,
            260 => Stop::Memory,
            code => Stop::Unknown(code),
        }
    }
}

impl fmt::Display for Stop {
    fn fmt(&self, out: &mut fmt::Formatter<'_>) -> fmt::Result {
        match self {
            Stop::Pointer => write!(out, "an address outside the memory, or one that isn't aligned"),
            Stop::Table => write!(out, "more descriptors than the table has room for"),
            Stop::Exit => write!(out, "a status of 126 or more"),
            Stop::Ended => write!(out, "the guest ended"),
            Stop::Memory => write!(out, "there isn't enough memory"),
            Stop::Unknown(code) => write!(out, "code {code}"),
        }
    }
}

impl std::error::Error for Stop {}

/// Why a script is refused.
#[derive(Clone, Copy, Debug, PartialEq, Eq)]
pub enum Refused {
    /// It has more than 16,777,216 bytes.
    Long,
    /// It isn't JSON.
    Json,
    /// It isn't of a script's shape.
    Shape,
    /// Its nodes are no tree.
    Tree,
    /// It passes a limit.
    Limit,
    /// It has calls, a memory, or ranges of it to be shown.
    Guest,
    /// It has nodes or limits of its own, where a base has them.
    OwnTree,
    /// Memory was wanted.
    Memory,
    /// The library answered a number that this crate doesn't know.
    Unknown(u32),
}

impl Refused {
    fn of(code: u32) -> Refused {
        match code {
            270 => Refused::Long,
            271 => Refused::Json,
            272 => Refused::Shape,
            273 => Refused::Tree,
            274 => Refused::Limit,
            275 => Refused::Guest,
            276 => Refused::OwnTree,
            260 => Refused::Memory,
            code => Refused::Unknown(code),
        }
    }
}

impl fmt::Display for Refused {
    fn fmt(&self, out: &mut fmt::Formatter<'_>) -> fmt::Result {
        write!(out, "the script is refused: {self:?}")
    }
}

impl std::error::Error for Refused {}

/// How much a guest has used of the quotas that its script gives it. A count without a bound is 0.
#[derive(Clone, Copy, Debug, PartialEq, Eq)]
pub struct QuotaUsed {
    /// How many makings: of directories and links, and by opens that create.
    pub nodes: u64,
    /// By how many bytes files became longer.
    pub bytes: u64,
}

/// A point in time: seconds from the epoch on, negative before it, and nanoseconds, below 1,000,000,000.
#[derive(Clone, Copy, Debug, Default, PartialEq, Eq)]
#[repr(C)]
pub struct Time {
    pub seconds: i64,
    pub nanoseconds: u32,
}

/// A node of a tree, but for its bytes and its names.
#[derive(Clone, Copy, Debug, Default, PartialEq, Eq)]
#[repr(C)]
pub struct Node {
    /// How many names a file or a link has. A directory's are shown as 1.
    pub links: u64,
    /// How many bytes a file, or a link's text, has; 0 of a directory.
    pub size: u64,
    pub atime: Time,
    pub mtime: Time,
    pub btime: Time,
    /// Preview1's number of its type: 3 of a directory, 4 of a file, 7 of a link.
    pub filetype: u32,
    /// 1 of a directory that was removed, 0 of every other node.
    pub removed: u32,
}

/// Why a node's bytes can't be read.
#[derive(Clone, Copy, Debug, PartialEq, Eq)]
pub enum Unread {
    /// No node has the number.
    NoNode,
    /// It is a directory.
    Directory,
}

impl fmt::Display for Unread {
    fn fmt(&self, out: &mut fmt::Formatter<'_>) -> fmt::Result {
        match self {
            Unread::NoNode => write!(out, "no node has the number"),
            Unread::Directory => write!(out, "the node is a directory"),
        }
    }
}

impl std::error::Error for Unread {}

/// The names of a listing, as `wasi_entries` of wasi.h lays them out, each with the number of its node.
fn entries_of(listing: &[u8]) -> Vec<(String, u64)> {
    let (mut entries, mut left) = (Vec::new(), listing);
    while let Some((number, behind)) = left.split_first_chunk::<8>() {
        let len = behind.iter().position(|&byte| byte == 0).unwrap_or(behind.len());
        let name = String::from_utf8_lossy(&behind[..len]).into_owned();
        entries.push((name, u64::from_le_bytes(*number)));
        left = behind.get(len + 1..).unwrap_or(&[]);
    }
    entries
}

/// A sandbox: a tree, the descriptors of one guest, and what it is handed in. It stays on its thread:
///
/// ```compile_fail
/// fn sent<T: Send>(value: T) {}
/// sent(wasi_embed::Sandbox::start("{}").unwrap());
/// ```
pub struct Sandbox {
    raw: Raw,
    stop: Option<Stop>,
}

/// A tree that sandboxes stand over, as [`Sandbox::commit`] makes it. Nothing changes it, and it stays for as long as
/// the program runs: its memory is never given back, also once no copy of this value is left. It stays on its thread.
///
/// ```
/// use wasi_embed::Sandbox;
///
/// let tree = r#"{"nodes": [{"dir": {"shared": 1}}, {"dir": {}}], "preopens": [], "calls": []}"#;
/// let session = r#"{"nodes": [], "preopens": [{"node": 1, "name": "/", "perms": "rw"}], "calls": []}"#;
/// let base = Sandbox::start(tree)?.commit()?;
/// let (mut one, mut other) = (base.start(session)?, base.start(session)?);
/// let mut memory = *b"new";
/// assert_eq!(one.path_create_directory(&mut memory, 3, 0, 3)?, 0);
/// assert_eq!(one.kept()?, Some(vec![1, 2]));
/// assert_eq!(other.kept()?, Some(vec![]));
/// # Ok::<(), Box<dyn std::error::Error>>(())
/// ```
#[derive(Clone, Copy, Debug)]
#[repr(C)]
pub struct Base {
    at: *const u8,
}

extern "C" {
    fn wasi_c_start(sandbox: *mut Raw, script: *const u8, script_len: usize) -> u32;
    fn wasi_c_start_over(base: Base, sandbox: *mut Raw, script: *const u8, script_len: usize) -> u32;
    fn wasi_c_commit(sandbox: *mut Raw, empty: Raw, base: *mut Base) -> u32;
    fn wasi_c_kept(sandbox: *mut Raw, empty: Raw, numbers: *mut u64, room: usize, len: *mut usize) -> u32;
    fn wasi_c_answered(sandbox: *mut Raw, empty: Raw) -> u64;
    fn wasi_c_quota_used(sandbox: *mut Raw, empty: Raw, nodes: *mut u64, bytes: *mut u64);
    fn wasi_c_report(sandbox: *mut Raw, empty: Raw, text: *mut u8, room: usize, len: *mut usize) -> u32;
    fn wasi_c_node(sandbox: *mut Raw, empty: Raw, number: u64, node: *mut Node) -> u32;
    fn wasi_c_read(
        sandbox: *mut Raw,
        empty: Raw,
        number: u64,
        from: u64,
        bytes: *mut u8,
        room: usize,
        len: *mut usize,
    ) -> u32;
    fn wasi_c_entry(
        sandbox: *mut Raw,
        empty: Raw,
        directory: u64,
        name: *const u8,
        name_len: usize,
        number: *mut u64,
    ) -> u32;
    fn wasi_c_entries(
        sandbox: *mut Raw,
        empty: Raw,
        directory: u64,
        text: *mut u8,
        room: usize,
        len: *mut usize,
    ) -> u32;
    fn wasi_c_output(
        sandbox: *mut Raw,
        empty: Raw,
        error: bool,
        from: u64,
        bytes: *mut u8,
        room: usize,
        len: *mut usize,
        total: *mut u64,
    );
    fn wasi_c_end(sandbox: *mut Raw, empty: Raw);
    fn wasi_c_call(
        sandbox: *mut Raw,
        empty: Raw,
        memory: *mut u8,
        memory_len: usize,
        number: u32,
        words: *const u64,
        words_len: usize,
    ) -> u32;
}

impl Base {
    /// Begins a sandbox over the base, by the text of a script whose `nodes` are `[]` and that has no `limits`: its
    /// preopens name directories of the base by their numbers there. No tree is copied. Any number of sandboxes may
    /// stand over one base, each with its own changes, which none of the others sees.
    pub fn start(&self, script: &str) -> Result<Sandbox, Refused> {
        let mut raw = nothing();
        // SAFETY: the base was committed, and stays; the sandbox is the empty one, and the text is there for the call.
        let code = unsafe { wasi_c_start_over(*self, &mut raw, script.as_ptr(), script.len()) };
        Sandbox::begun(raw, code)
    }
}

impl Sandbox {
    /// Begins a sandbox by the text of a script (docs/scripts.md) without calls, memory and ranges to be shown.
    pub fn start(script: &str) -> Result<Sandbox, Refused> {
        let mut raw = nothing();
        // SAFETY: the sandbox is the empty one, and the text is there for the call.
        let code = unsafe { wasi_c_start(&mut raw, script.as_ptr(), script.len()) };
        Sandbox::begun(raw, code)
    }

    /// What a start left in the place of the empty sandbox, or why the script is refused.
    fn begun(raw: Raw, code: u32) -> Result<Sandbox, Refused> {
        match code {
            0 => Ok(Sandbox { raw, stop: None }),
            code => Err(Refused::of(code)),
        }
    }

    /// Makes a base of the tree as it stands: a copy, which is never given back. The sandbox stays, and so does the
    /// base that it may stand over. `Stop::Memory` where memory was wanted; then there is no base.
    pub fn commit(&mut self) -> Result<Base, Stop> {
        let mut base = Base { at: ptr::null() };
        // SAFETY: the sandbox isn't empty, and the base is none.
        match unsafe { wasi_c_commit(&mut self.raw, nothing(), &mut base) } {
            0 => Ok(base),
            code => Err(Stop::of(code)),
        }
    }

    /// The numbers of the nodes that calls have worked on, rising, as the report numbers them; a read or a look works
    /// on none (docs/scripts.md, "A trial"). `None` of a sandbox over no base. `Stop::Memory` where memory was wanted.
    pub fn kept(&mut self) -> Result<Option<Vec<u64>>, Stop> {
        // SAFETY: the sandbox isn't empty; the room and the length are borrowed for the call, and don't overlap.
        let kept = with_room(64, |numbers, room, len| unsafe {
            wasi_c_kept(&mut self.raw, nothing(), numbers, room, len)
        });
        match kept {
            Ok(numbers) => Ok(Some(numbers)),
            Err(ALONE) => Ok(None),
            Err(code) => Err(Stop::of(code)),
        }
    }

    /// How many calls were answered, as `wasi_answered` of wasi.h counts them.
    pub fn answered(&mut self) -> u64 {
        // SAFETY: the sandbox isn't empty, since `start` began it and only `drop` ends it.
        unsafe { wasi_c_answered(&mut self.raw, nothing()) }
    }

    /// How much of its quotas the guest has used so far.
    pub fn quota_used(&mut self) -> QuotaUsed {
        let mut used = QuotaUsed { nodes: 0, bytes: 0 };
        // SAFETY: the sandbox isn't empty; both counts are borrowed for the call.
        unsafe { wasi_c_quota_used(&mut self.raw, nothing(), &mut used.nodes, &mut used.bytes) }
        used
    }

    /// How the guest was stopped, if it was: no call is made any more.
    pub fn stop(&self) -> Option<Stop> {
        self.stop
    }

    /// The report of the sandbox as it stands: a JSON text, in which `answers` and `memory` are empty.
    pub fn report(&mut self) -> Result<String, Stop> {
        // SAFETY: the sandbox isn't empty; the room and the length are borrowed for the call, and don't overlap.
        let text = with_room(1 << 16, |text, room, len| unsafe {
            wasi_c_report(&mut self.raw, nothing(), text, room, len)
        });
        text.map(|text| String::from_utf8_lossy(&text).into_owned())
            .map_err(Stop::of)
    }

    /// The node of a number, as the report numbers them, in the tree as it stands; `None` where no node has the number.
    /// This and the functions up to `stderr` only read: no node counts as accessed, and no call is counted. They answer
    /// alike after the guest was stopped or ended.
    pub fn node(&mut self, number: u64) -> Option<Node> {
        let mut node = Node::default();
        // SAFETY: the sandbox isn't empty; the node is borrowed for the call.
        let code = unsafe { wasi_c_node(&mut self.raw, nothing(), number, &mut node) };
        (code == 0).then_some(node)
    }

    /// Copies the bytes of a file, or of a link's text, from an offset on to the front of `bytes`, as many as there are
    /// and have room: how many these are, 0 at or past the end.
    pub fn read(&mut self, number: u64, from: u64, bytes: &mut [u8]) -> Result<usize, Unread> {
        let (at, room, mut len) = (bytes.as_mut_ptr(), bytes.len(), 0);
        // SAFETY: the sandbox isn't empty; the bytes and the length are borrowed for the call, and don't overlap.
        match unsafe { wasi_c_read(&mut self.raw, nothing(), number, from, at, room, &mut len) } {
            0 => Ok(len),
            DIRECTORY => Err(Unread::Directory),
            _ => Err(Unread::NoNode),
        }
    }

    /// The number of the node that a directory holds under a name, which is no path; a link isn't followed. `None` where
    /// it holds none, and of what is no directory.
    pub fn entry(&mut self, directory: u64, name: &str) -> Option<u64> {
        let mut number = 0;
        // SAFETY: the sandbox isn't empty; the name and the number are borrowed for the call.
        let code = unsafe {
            wasi_c_entry(
                &mut self.raw,
                nothing(),
                directory,
                name.as_ptr(),
                name.len(),
                &mut number,
            )
        };
        (code == 0).then_some(number)
    }

    /// All names of a directory, in byte order, each with the number of its node; none of what is no directory.
    /// `Stop::Memory` where memory was wanted.
    pub fn entries(&mut self, directory: u64) -> Result<Vec<(String, u64)>, Stop> {
        // SAFETY: the sandbox isn't empty; the room and the length are borrowed for the call, and don't overlap.
        let listing = with_room(1 << 12, |text, room, len| unsafe {
            wasi_c_entries(&mut self.raw, nothing(), directory, text, room, len)
        });
        listing.map(|listing| entries_of(&listing)).map_err(Stop::of)
    }

    /// What the guest wrote so far to the standard output.
    pub fn stdout(&mut self) -> Vec<u8> {
        self.output(false)
    }

    /// What the guest wrote so far to the standard error.
    pub fn stderr(&mut self) -> Vec<u8> {
        self.output(true)
    }

    fn output(&mut self, error: bool) -> Vec<u8> {
        let mut written = Vec::new();
        let total = self.output_part(error, &mut written);
        written.resize(total as usize, 0);
        self.output_part(error, &mut written);
        written
    }

    /// Copies an output to the front of some bytes, as much as has room: how many bytes it has in all.
    fn output_part(&mut self, error: bool, bytes: &mut [u8]) -> u64 {
        let (at, room, mut len, mut total) = (bytes.as_mut_ptr(), bytes.len(), 0, 0);
        // SAFETY: the sandbox isn't empty; what is written to is borrowed for the call, and doesn't overlap.
        unsafe { wasi_c_output(&mut self.raw, nothing(), error, 0, at, room, &mut len, &mut total) };
        total
    }

    /// The call of a number: an error number of preview1, 0 where there is none; or how the guest is stopped, which is
    /// kept, and then no call is made any more.
    fn call(&mut self, number: u32, memory: &mut [u8], words: &[u64]) -> Result<u32, Stop> {
        if let Some(stop) = self.stop {
            return Err(stop);
        }
        let (at, len) = (memory.as_mut_ptr(), memory.len());
        // SAFETY: the sandbox isn't empty, and the memory and the words are borrowed for the call alone.
        let code = unsafe { wasi_c_call(&mut self.raw, nothing(), at, len, number, words.as_ptr(), words.len()) };
        if code < 256 {
            return Ok(code);
        }
        self.stop = Some(Stop::of(code));
        Err(Stop::of(code))
    }
}

impl Drop for Sandbox {
    fn drop(&mut self) {
        // SAFETY: the sandbox isn't empty.
        unsafe { wasi_c_end(&mut self.raw, nothing()) }
    }
}

/// A method of each call, by its number: its arguments and the addresses of its results stand behind the guest's memory,
/// and an address is a place in that memory. The answer is an error number of preview1, or 0.
macro_rules! calls {
    ($($(#[$about:meta])* $number:literal => $name:ident($($word:ident: $kind:ty),*);)*) => {
        #[allow(clippy::too_many_arguments)]
        impl Sandbox {
            $($(#[$about])*
            pub fn $name(&mut self, memory: &mut [u8], $($word: $kind),*) -> Result<u32, Stop> {
                self.call($number, memory, &[$($word as u64),*])
            })*
        }
    };
}

mod calls;
