//! Says where the archive is that the calls are in: in the folder `USS_LIB_DIR`, where that is set; else where `lib/prove archive`
//! (x86-64) or `ports/build` (other chips) of this repository writes the one of the target.

use std::env;
use std::path::PathBuf;
use std::process::{exit, Command};

/// Targets of Rust, and where the archive of each is written under `target`.
const PLACES: [(&str, &str); 12] = [
    ("x86_64-unknown-linux-gnu", "staticlib"),
    ("x86_64-unknown-linux-musl", "staticlib"),
    ("thumbv6m-none-eabi", "ports/cortex-m0"),
    ("thumbv7m-none-eabi", "ports/cortex-m3"),
    ("thumbv7em-none-eabi", "ports/cortex-m4"),
    ("thumbv7em-none-eabihf", "ports/cortex-m4f"),
    ("riscv32imac-unknown-none-elf", "ports/riscv32"),
    ("armv7-unknown-linux-gnueabihf", "ports/armv7-linux"),
    ("thumbv7neon-unknown-linux-gnueabihf", "ports/armv7-linux"),
    ("aarch64-unknown-linux-gnu", "ports/aarch64-linux"),
    ("riscv64gc-unknown-linux-gnu", "ports/riscv64-linux"),
    ("wasm32-unknown-unknown", "ports/wasm32"),
];

/// Ends the build with a text that says what to do.
fn fail(text: &str) -> ! {
    eprintln!("uss: {text}");
    exit(1)
}

/// The folder of the target's archive under `target`, and the command that writes it.
fn place(target: &str) -> (&'static str, String) {
    match PLACES.iter().find(|(name, _)| *name == target) {
        Some((_, folder)) => match folder.strip_prefix("ports/") {
            Some(port) => (folder, format!("ports/build {port}")),
            None => (folder, "lib/prove archive".to_string()),
        },
        None => fail(&format!("there is no archive for {target}; set USS_LIB_DIR to the folder of a libuss_c.a that suits it")),
    }
}

/// Before 1.89 a struct is handed over otherwise than in C on this target.
fn wasm_suits() -> bool {
    let rustc = env::var_os("RUSTC").unwrap_or_else(|| "rustc".into());
    let said = Command::new(rustc).arg("--version").output().map(|out| out.stdout).unwrap_or_default();
    let said = String::from_utf8_lossy(&said);
    let mut parts = said.strip_prefix("rustc ").unwrap_or("").split('.').map(|part| part.parse::<u32>().unwrap_or(0));
    (parts.next(), parts.next()) >= (Some(1), Some(89))
}

fn main() {
    println!("cargo:rerun-if-changed=build.rs");
    println!("cargo:rerun-if-env-changed=USS_LIB_DIR");
    let target = env::var("TARGET").expect("cargo sets TARGET");
    if target == "wasm32-unknown-unknown" && !wasm_suits() {
        fail("wasm32-unknown-unknown needs Rust 1.89 or later, which hands over structs as C does");
    }
    let root = PathBuf::from(env::var_os("CARGO_MANIFEST_DIR").expect("cargo sets CARGO_MANIFEST_DIR"));
    let (folder, remedy) = match env::var_os("USS_LIB_DIR") {
        Some(folder) => (PathBuf::from(folder), "USS_LIB_DIR is the folder of libuss_c.a, as an absolute path".to_string()),
        None => {
            let (folder, command) = place(&target);
            let root = root.parent().unwrap_or(&root);
            (root.join("target").join(folder), format!("`{command}` in {} writes it", root.display()))
        }
    };
    let archive = folder.join("libuss_c.a");
    if !folder.is_absolute() || !archive.is_file() {
        fail(&format!("{} is missing: {remedy}", archive.display()));
    }
    println!("cargo:rerun-if-changed={}", archive.display());
    println!("cargo:rustc-link-search=native={}", folder.display());
    println!("cargo:rustc-link-lib=static=uss_c");
}
