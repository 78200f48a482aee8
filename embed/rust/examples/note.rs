//! What an engine does for a guest, by hand: it makes a file, writes it, reads it back, and shows the report.
//!
//!     cargo run --offline --example note

use wasi_embed::{Sandbox, Stop};

const SCRIPT: &str = r#"{"nodes": [{"dir": {}}], "preopens": [{"node": 0, "name": "/", "perms": "rw"}], "calls": []}"#;
const PATH: u32 = 1024;
const TEXT: u32 = 2048;
const BUFFER: u32 = 4096;
const RECORD: u32 = 0;
const RESULT: u32 = 16;
const CREAT: u32 = 1;
const FD_READ: u64 = 2;
const FD_WRITE: u64 = 64;

fn number_at(memory: &[u8], place: u32) -> u32 {
    let place = place as usize;
    u32::from_le_bytes(memory[place..place + 4].try_into().unwrap())
}

fn put(memory: &mut [u8], place: u32, bytes: &[u8]) {
    memory[place as usize..place as usize + bytes.len()].copy_from_slice(bytes);
}

// A record of one buffer, as `fd_read` and `fd_write` take it.
fn put_record(memory: &mut [u8], place: u32, length: u32) {
    put(memory, RECORD, &place.to_le_bytes());
    put(memory, RECORD + 4, &length.to_le_bytes());
}

fn run(sandbox: &mut Sandbox, memory: &mut [u8]) -> Result<(), Stop> {
    put(memory, PATH, b"note.txt");
    put(memory, TEXT, b"hello, tree\n");
    println!(
        "open {}",
        sandbox.path_open(memory, 3, 0, PATH, 8, CREAT, FD_READ | FD_WRITE, 0, 0, RESULT)?
    );
    let fd = number_at(memory, RESULT);
    put_record(memory, TEXT, 12);
    println!("write {}", sandbox.fd_write(memory, fd, RECORD, 1, RESULT)?);
    put_record(memory, BUFFER, 64);
    println!("read {}", sandbox.fd_pread(memory, fd, RECORD, 1, 0, RESULT)?);
    let end = (BUFFER + number_at(memory, RESULT)) as usize;
    print!("{}", String::from_utf8_lossy(&memory[BUFFER as usize..end]));
    Ok(())
}

fn main() -> Result<(), Box<dyn std::error::Error>> {
    let mut sandbox = Sandbox::start(SCRIPT)?;
    let mut memory = vec![0; 65536];
    run(&mut sandbox, &mut memory)?;
    println!("answered {}", sandbox.answered());
    print!("{}", sandbox.report()?);
    Ok(())
}
