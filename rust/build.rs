// Links the static library that `tools/archive` writes: from the folder that MILLETTIE_DIR names, or else from beside this file, or
// else from where that command leaves it.
use std::env;
use std::path::PathBuf;

const ARCHIVE: &str = "libmillettie.a";

fn stop(why: &str) -> ! {
    eprintln!("millettie: {}", why);
    std::process::exit(1)
}

fn main() {
    println!("cargo:rerun-if-env-changed=MILLETTIE_DIR");
    if env::var("CARGO_CFG_TARGET_ARCH").as_deref() != Ok("x86_64") {
        stop("the static library links into x86-64 programs only: cargo build --target x86_64-unknown-linux-gnu");
    }
    let here = PathBuf::from(env::var("CARGO_MANIFEST_DIR").unwrap());
    let folders = match env::var_os("MILLETTIE_DIR") {
        Some(given) => vec![PathBuf::from(given)],
        None => vec![here.clone(), here.join("../target/staticlib")],
    };
    match folders.iter().find(|folder| folder.join(ARCHIVE).is_file()) {
        Some(folder) => {
            println!("cargo:rerun-if-changed={}", folder.join(ARCHIVE).display());
            println!("cargo:rustc-link-search=native={}", folder.display());
            println!("cargo:rustc-link-lib=static=millettie");
        }
        None => stop(&format!(
            "no {} in {:?}. Make it by `tools/archive` in the project's repository, then copy it there or set MILLETTIE_DIR to its folder",
            ARCHIVE, folders
        )),
    }
}
