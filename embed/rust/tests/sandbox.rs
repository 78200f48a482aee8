//! `cargo test --offline`

use wasi_embed::{Base, Node, QuotaUsed, Refused, Sandbox, Stop, Time, Unread};

const SCRIPT: &str = r#"{"nodes": [{"dir": {"f": 1}}, {"file": "746f70"}],
    "preopens": [{"node": 0, "name": "/", "perms": "rw"}], "calls": [], "table": 5, "random": "5a"}"#;
const SESSION: &str = r#"{"nodes": [], "preopens": [{"node": 0, "name": "/", "perms": "rw"}], "calls": []}"#;
const BADF: u32 = 8;
const DQUOT: u32 = 19;
const NOENT: u32 = 44;

fn open(sandbox: &mut Sandbox, memory: &mut [u8], path: &[u8], flags: u32) -> Result<u32, Stop> {
    memory[64..64 + path.len()].copy_from_slice(path);
    sandbox.path_open(memory, 3, 0, 64, path.len() as u32, flags, 2, 0, 0, 16)
}

// Opens a path in a sandbox of its own over a base.
fn find(base: Base, path: &[u8]) -> Result<u32, Stop> {
    open(&mut base.start(SESSION).unwrap(), &mut [0; 128], path, 0)
}

#[test]
fn scripts_are_refused() {
    for (script, refused) in [
        ("", Refused::Json),
        ("{}", Refused::Shape),
        (
            r#"{"nodes": [{"file": ""}], "preopens": [], "calls": []}"#,
            Refused::Tree,
        ),
        (
            r#"{"nodes": [{"dir": {}}], "preopens": [], "calls": [["sched_yield"]]}"#,
            Refused::Guest,
        ),
    ] {
        assert_eq!(Sandbox::start(script).err(), Some(refused));
    }
}

#[test]
fn calls_answer_and_traps_stop() {
    let mut sandbox = Sandbox::start(SCRIPT).unwrap();
    let mut memory = vec![0; 65536];
    assert_eq!(sandbox.fd_close(&mut memory, 77), Ok(BADF));
    assert_eq!(open(&mut sandbox, &mut memory, b"g", 0), Ok(NOENT));
    assert_eq!(open(&mut sandbox, &mut memory, b"f", 0), Ok(0));
    assert_eq!(memory[16], 4);
    assert_eq!(open(&mut sandbox, &mut memory, b"f", 0), Err(Stop::Table));
    assert_eq!(sandbox.fd_close(&mut memory, 77), Err(Stop::Table));
    assert_eq!(sandbox.stop(), Some(Stop::Table));
    assert_eq!(sandbox.answered(), 4);
}

#[test]
fn quotas_are_counted() {
    let script = SCRIPT.replace("{\"nodes\"", r#"{"quota": {"nodes": 1, "bytes": 9}, "nodes""#);
    let mut sandbox = Sandbox::start(&script).unwrap();
    let mut memory = vec![0; 65536];
    assert_eq!(sandbox.quota_used(), QuotaUsed { nodes: 0, bytes: 0 });
    assert_eq!(open(&mut sandbox, &mut memory, b"new", 1), Ok(0));
    assert_eq!(sandbox.path_create_directory(&mut memory, 3, 64, 1), Ok(DQUOT));
    assert_eq!(sandbox.fd_filestat_set_size(&mut memory, 4, 8), Ok(0));
    assert_eq!(sandbox.fd_filestat_set_size(&mut memory, 4, 10), Ok(DQUOT));
    assert_eq!(sandbox.quota_used(), QuotaUsed { nodes: 1, bytes: 8 });
}

#[test]
fn memories_of_each_length() {
    let mut sandbox = Sandbox::start(SCRIPT).unwrap();
    assert_eq!(sandbox.random_get(&mut [], 0, 0), Ok(0));
    let mut memory = [0; 3];
    assert_eq!(sandbox.random_get(&mut memory, 1, 2), Ok(0));
    assert_eq!(memory, [0, 0x5a, 0x5a]);
    assert_eq!(sandbox.random_get(&mut memory, 1, 3), Err(Stop::Pointer));
    assert_eq!(memory, [0, 0x5a, 0x5a]);
}

#[test]
fn two_sandboxes() {
    let (mut first, mut second) = (Sandbox::start(SCRIPT).unwrap(), Sandbox::start(SCRIPT).unwrap());
    let mut memory = vec![0; 65536];
    assert_eq!(open(&mut first, &mut memory, b"new", 1), Ok(0));
    assert_eq!(open(&mut second, &mut memory, b"new", 0), Ok(NOENT));
    drop(first);
    assert_eq!(open(&mut second, &mut memory, b"f", 0), Ok(0));
    assert!(second.report().unwrap().contains("\"touched\":[0,1]"));
}

#[test]
fn sandboxes_over_a_base() {
    let mut first = Sandbox::start(SCRIPT).unwrap();
    assert_eq!(first.kept(), Ok(None));
    let base = first.commit().unwrap();
    drop(first);
    let (mut one, mut other) = (base.start(SESSION).unwrap(), base.start(SESSION).unwrap());
    let mut memory = vec![0; 65536];
    assert_eq!(open(&mut one, &mut memory, b"new", 1), Ok(0));
    assert_eq!(open(&mut other, &mut memory, b"new", 0), Ok(NOENT));
    assert_eq!(one.kept(), Ok(Some(vec![0, 2])));
    assert_eq!(other.kept(), Ok(Some(vec![])));
    let next = one.commit().unwrap();
    drop(one);
    drop(other);
    assert_eq!((find(next, b"new"), find(next, b"f")), (Ok(0), Ok(0)));
    assert_eq!((find(base, b"new"), find(base, b"f")), (Ok(NOENT), Ok(0)));
}

// What is read of a sandbox whose tree has a file `f`, in which a guest makes a directory and writes.
fn read_of(sandbox: &mut Sandbox) {
    let mut memory = [0; 128];
    memory[64..67].copy_from_slice(b"new");
    assert_eq!(sandbox.path_create_directory(&mut memory, 3, 64, 3), Ok(0));
    memory[80] = 64;
    memory[84] = 3;
    assert_eq!(sandbox.fd_write(&mut memory, 1, 80, 1, 16), Ok(0));
    let made = sandbox.entry(0, "new").unwrap();
    assert_eq!(made, 2);
    assert_eq!(
        sandbox.entries(0),
        Ok(vec![("f".to_string(), 1), ("new".to_string(), made)])
    );
    assert_eq!(sandbox.entries(made), Ok(vec![]));
    assert_eq!(sandbox.entries(1), Ok(vec![]));
    let file = sandbox.node(1).unwrap();
    assert_eq!(
        (file.filetype, file.links, file.size, file.mtime),
        (4, 1, 3, Time::default())
    );
    assert_eq!(
        sandbox.node(made),
        Some(Node {
            links: 1,
            filetype: 3,
            ..Node::default()
        })
    );
    assert_eq!(sandbox.node(3), None);
    let mut bytes = [b'?'; 4];
    assert_eq!(sandbox.read(1, 0, &mut bytes), Ok(3));
    assert_eq!(&bytes, b"top?");
    assert_eq!(sandbox.read(1, 1, &mut bytes[..1]), Ok(1));
    assert_eq!(&bytes, b"oop?");
    assert_eq!(sandbox.read(1, u64::MAX, &mut bytes), Ok(0));
    assert_eq!(sandbox.read(made, 0, &mut bytes), Err(Unread::Directory));
    assert_eq!(sandbox.read(3, 0, &mut bytes), Err(Unread::NoNode));
    assert_eq!(
        (sandbox.entry(0, "gone"), sandbox.entry(1, "f"), sandbox.entry(9, "f")),
        (None, None, None)
    );
    assert_eq!((sandbox.stdout(), sandbox.stderr()), (b"new".to_vec(), vec![]));
    assert_eq!(sandbox.answered(), 2);
}

#[test]
fn results_are_read() {
    let mut alone = Sandbox::start(SCRIPT).unwrap();
    let base = alone.commit().unwrap();
    read_of(&mut alone);
    read_of(&mut base.start(SESSION).unwrap());
}

#[test]
fn a_listing_longer_than_the_first_room() {
    let mut sandbox = Sandbox::start(SCRIPT).unwrap();
    for n in 100..999 {
        let mut memory = n.to_string().into_bytes();
        assert_eq!(sandbox.path_create_directory(&mut memory, 3, 0, 3), Ok(0));
    }
    let entries = sandbox.entries(0).unwrap();
    assert_eq!((entries.len(), &entries[898]), (900, &("998".to_string(), 900)));
}

#[test]
fn scripts_over_a_base_are_refused() {
    let base = Sandbox::start(SCRIPT).unwrap().commit().unwrap();
    for (script, refused) in [
        ("", Refused::Json),
        (SCRIPT, Refused::OwnTree),
        (
            r#"{"nodes": [], "preopens": [], "calls": [], "limits": {"nodes": 2, "links": 1}}"#,
            Refused::OwnTree,
        ),
        (
            r#"{"nodes": [], "preopens": [{"node": 1, "name": "/", "perms": "rw"}], "calls": []}"#,
            Refused::Limit,
        ),
        (
            r#"{"nodes": [], "preopens": [], "calls": [["sched_yield"]]}"#,
            Refused::Guest,
        ),
    ] {
        assert_eq!(base.start(script).err(), Some(refused));
    }
}

#[test]
fn more_nodes_than_the_first_room() {
    let base = Sandbox::start(SCRIPT).unwrap().commit().unwrap();
    let mut sandbox = base.start(SESSION).unwrap();
    for n in 10..99 {
        let mut memory = n.to_string().into_bytes();
        assert_eq!(sandbox.path_create_directory(&mut memory, 3, 0, 2), Ok(0));
    }
    let wanted = [0].into_iter().chain(2..91).collect();
    assert_eq!(sandbox.kept(), Ok(Some(wanted)));
}

#[test]
fn ends_and_reports() {
    let mut sandbox = Sandbox::start(SCRIPT).unwrap();
    assert_eq!(sandbox.proc_exit(&mut [], 3), Err(Stop::Ended));
    assert_eq!(sandbox.sched_yield(&mut []), Err(Stop::Ended));
    assert!(sandbox.report().unwrap().starts_with('{'));
    assert_eq!(Sandbox::start(SCRIPT).unwrap().proc_exit(&mut [], 126), Err(Stop::Exit));
}

#[test]
fn reports_longer_than_the_first_room() {
    let file = "ab".repeat(200_000);
    let script = format!(r#"{{"nodes": [{{"dir": {{"f": 1}}}}, {{"file": "{file}"}}], "preopens": [], "calls": []}}"#);
    assert!(Sandbox::start(&script).unwrap().report().unwrap().contains(&file));
}
