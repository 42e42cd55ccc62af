//! For build scripts: builds a proved crate as a static library and links it, with the toolchain's own allocator glue.
use std::fs::File;
use std::path::{Path, PathBuf};
use std::process::Command;

fn rt(folder: &Path, words: &[&str]) -> String {
    let run = Command::new("rt").args(words).current_dir(folder).output().expect("the command rt is on the path");
    let said = String::from_utf8_lossy(&run.stdout).into_owned();
    assert!(run.status.success(), "rt {words:?}: {said}{}", String::from_utf8_lossy(&run.stderr));
    said
}

/// Links the crate `library`, and builds it again where it or one of the crates that it leans on changed.
pub fn link(library: &str, leans_on: &[&str]) {
    let root = PathBuf::from(std::env::var("CARGO_MANIFEST_DIR").expect("cargo says where the crate lies")).join("../..");
    println!("cargo:rerun-if-changed={}", root.join("crates.txt").display());
    for name in leans_on.iter().chain([&library]) {
        for part in ["src", "specs", "proofs"].map(|part| root.join("crates").join(name).join(part)) {
            // one that isn't there would count as changed each time
            if part.exists() {
                println!("cargo:rerun-if-changed={}", part.display());
            }
        }
    }
    let folder = root.join("crates").join(library);
    let archives = folder.join("out");
    println!("cargo:rerun-if-changed={}", archives.join(format!("lib{library}.a")).display());
    // cargo runs build scripts side by side, and each is to have the processors for itself
    let locks = root.join("second/target");
    std::fs::create_dir_all(&locks).expect("target/ can be made");
    let lock = File::create(locks.join("lock")).expect("a lock file can be made");
    lock.lock().expect("the lock is had");
    rt(&folder, &["lib"]);
    drop(lock);
    let guide = PathBuf::from(rt(&root, &["doc"]).trim());
    let kit = guide.parent().expect("the guide lies in the toolchain's folder");
    println!("cargo:rustc-link-search=native={}", archives.display());
    println!("cargo:rustc-link-search=native={}", kit.join("c").display());
    println!("cargo:rustc-link-lib=static={library}");
    println!("cargo:rustc-link-lib=static=libc_c");
}
