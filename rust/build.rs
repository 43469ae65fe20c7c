//! Compiles the plain C that the benchmark measures against, and links the
//! static library that `rt lib` leaves in the folder of the crate dualrail.

use std::env;
use std::path::Path;
use std::process::Command;

fn run(command: &mut Command) {
    let status = command.status().expect("the tool cannot be started");
    assert!(status.success(), "{command:?} failed");
}

fn main() {
    let out = env::var("OUT_DIR").unwrap();
    let object = format!("{out}/plain.o");
    let archive = format!("{out}/libplain.a");
    // The processor that the plain C is for: this one, unless another is named.
    let processor = env::var("PLAIN_MARCH").unwrap_or("native".to_string());
    run(Command::new("cc").args([
        "-O3",
        &format!("-march={processor}"),
        "-std=c11",
        "-Wall",
        "-Wextra",
        "-c",
        "bench/plain.c",
        "-o",
        &object,
    ]));
    let _ = std::fs::remove_file(&archive);
    run(Command::new("ar").args(["rcs", &archive, &object]));
    println!("cargo:rerun-if-changed=build.rs");
    println!("cargo:rerun-if-env-changed=PLAIN_MARCH");
    println!("cargo:rerun-if-changed=bench/plain.c");
    println!("cargo:rustc-link-search=native={out}");
    println!("cargo:rustc-link-lib=static=plain");

    if env::var_os("CARGO_FEATURE_NO_LIBRARY").is_none() {
        let here = env::var("CARGO_MANIFEST_DIR").unwrap();
        let folder = Path::new(&here).join("../crates/dualrail/out");
        let library = folder.join("libdualrail.a");
        println!("cargo:rerun-if-changed={}", library.display());
        assert!(
            library.exists(),
            "crates/dualrail/out/libdualrail.a is missing: run `rt lib` in crates/dualrail first"
        );
        println!("cargo:rustc-link-search=native={}", folder.display());
        println!("cargo:rustc-link-lib=static=dualrail");
    }
}
