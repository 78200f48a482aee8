//! Links the static library, and the C library of the kit that it stands on. `LIBRARY` names another static library,
//! and `KIT_LIBRARY` another place of the kit's.

use std::env;
use std::path::{Path, PathBuf};
use std::process::Command;

fn kit_library() -> PathBuf {
    if let Some(path) = env::var_os("KIT_LIBRARY") {
        return path.into();
    }
    let told = Command::new("rt")
        .arg("doc")
        .output()
        .expect("`rt` is on the path: see README.md");
    let page = String::from_utf8(told.stdout).expect("`rt doc` writes a path");
    Path::new(page.trim()).with_file_name("c").join("liblibc_c.a")
}

fn link(library: &Path) {
    let name = library
        .file_name()
        .and_then(|name| name.to_str())
        .expect("a library has a name");
    let name = name
        .strip_prefix("lib")
        .and_then(|name| name.strip_suffix(".a"))
        .expect("a library is called libNAME.a");
    assert!(
        library.exists(),
        "there is no {}: `rt lib` in crates/wasi_c builds it",
        library.display()
    );
    println!("cargo:rerun-if-changed={}", library.display());
    println!(
        "cargo:rustc-link-search=native={}",
        library.parent().expect("it stands in a folder").display()
    );
    println!("cargo:rustc-link-lib=static={name}");
}

fn main() {
    println!("cargo:rerun-if-env-changed=LIBRARY");
    println!("cargo:rerun-if-env-changed=KIT_LIBRARY");
    let here = PathBuf::from(env::var_os("CARGO_MANIFEST_DIR").expect("cargo says where the crate is"));
    let built = here.join("../../crates/wasi_c/out/libwasi_c.a");
    link(&env::var_os("LIBRARY").map_or(built, PathBuf::from));
    link(&kit_library());
}
