// Links the proved library (from the folder MILLETTIE_DIR, or else where `tools/archive` leaves it) and, where it is installed for the
// machine that is built for, libdbus.
use std::path::{Path, PathBuf};
use std::process::Command;

fn main() {
    println!("cargo:rerun-if-env-changed=MILLETTIE_DIR");
    println!("cargo:rustc-check-cfg=cfg(libdbus)");
    let beside =
        Path::new(&std::env::var("CARGO_MANIFEST_DIR").unwrap()).join("../target/staticlib");
    let folder = std::env::var_os("MILLETTIE_DIR").map_or(beside, PathBuf::from);
    println!(
        "cargo:rerun-if-changed={}",
        folder.join("libmillettie.a").display()
    );
    println!("cargo:rustc-link-search=native={}", folder.display());
    println!("cargo:rustc-link-lib=static=millettie");
    if std::env::var("HOST") == std::env::var("TARGET") {
        libdbus();
    }
}

fn libdbus() {
    let asked = Command::new("pkg-config")
        .args(["--libs-only-L", "dbus-1"])
        .output();
    let Some(answer) = asked.ok().filter(|answer| answer.status.success()) else {
        return;
    };
    for folder in String::from_utf8_lossy(&answer.stdout).split_whitespace() {
        println!(
            "cargo:rustc-link-search=native={}",
            folder.trim_start_matches("-L")
        );
    }
    println!("cargo:rustc-link-lib=dbus-1");
    println!("cargo:rustc-cfg=libdbus");
}
