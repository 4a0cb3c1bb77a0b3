//! Links the static libraries that `tools/make collector judged` puts into target/, and says so where they are missing.
use std::env::var;
use std::path::Path;
use std::process::exit;

const NAMES: [&str; 2] = ["collector", "judged"];

fn fail(why: &str) -> ! {
    eprintln!("{why}");
    exit(1)
}

/// The archives are for x86-64, so nothing else can link them.
fn check_processor() {
    let processor = var("CARGO_CFG_TARGET_ARCH").unwrap_or_default();
    if processor != "x86_64" {
        fail(&format!(
            "The static libraries are for x86-64, and this is built for {processor}. Source tools/for-x86-64 first, from the repository's root \
             (`. tools/for-x86-64`): cargo then builds for x86-64, and runs what it built under an emulator; `.ci/run` installs what that takes."
        ));
    }
}

fn check_archives(folder: &Path) {
    let is_missing = |name: &&str| !folder.join(format!("lib{name}.a")).exists();
    let missing: Vec<&str> = NAMES.into_iter().filter(is_missing).collect();
    if missing.is_empty() {
        return;
    }
    let files: Vec<String> = missing
        .iter()
        .map(|name| format!("target/staticlib/lib{name}.a"))
        .collect();
    fail(&format!(
        "Missing: {}. Make it with the Rattle toolchain, from the repository's root; it takes some minutes:\n\n    tools/make {}",
        files.join(" and "),
        missing.join(" ")
    ));
}

fn main() {
    let root = Path::new(env!("CARGO_MANIFEST_DIR"))
        .parent()
        .expect("host/ stands in the repository");
    let folder = root.join("target/staticlib");
    check_processor();
    check_archives(&folder);
    println!("cargo:rustc-link-search=native={}", folder.display());
    for name in NAMES {
        println!("cargo:rustc-link-lib=static={name}");
        println!(
            "cargo:rerun-if-changed={}",
            folder.join(format!("lib{name}.a")).display()
        );
    }
}
