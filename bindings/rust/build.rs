//! Says where libtablet.a is: in the folder that YUBI_LIB_DIR names (an absolute path), or else in the repository's
//! target/staticlib. Where it can't be linked this says so, and what to do: the linker's words are of little help.

use std::env;
use std::fs;
use std::path::{Path, PathBuf};

fn main() {
    println!("cargo:rerun-if-changed=build.rs");
    println!("cargo:rerun-if-env-changed=YUBI_LIB_DIR");
    let set = |name: &str| env::var(name).unwrap_or_default();
    let folder = match env::var_os("YUBI_LIB_DIR") {
        Some(folder) => PathBuf::from(folder),
        None => {
            let here = PathBuf::from(set("CARGO_MANIFEST_DIR"));
            here.ancestors().nth(2).unwrap_or(&here).join("target/staticlib")
        }
    };
    let library = folder.join("libtablet.a");
    println!("cargo:rerun-if-changed={}", library.display());
    println!("cargo:rustc-link-search=native={}", folder.display());
    // For the build scripts of crates that link the library themselves: DEP_TABLET_FOLDER.
    println!("cargo:folder={}", folder.display());

    let (target, arch, os) = (set("TARGET"), set("CARGO_CFG_TARGET_ARCH"), set("CARGO_CFG_TARGET_OS"));
    match fs::read(&library) {
        // A warning: documentation and checks need no library.
        Err(_) => println!("cargo:warning={}", without_library(&folder)),
        Ok(archive) => {
            if let Some(words) = unlike_target(&target, &arch, machine(&archive)) {
                eprintln!("{words}");
                std::process::exit(1);
            }
        }
    }
    if let Some(words) = untried(&target, &os) {
        println!("cargo:warning={words}");
    }
}

/// What to say where the folder has no library.
pub fn without_library(folder: &Path) -> String {
    let relative = if folder.is_absolute() { "" } else { " (YUBI_LIB_DIR wants an absolute path)" };
    format!(
        "there is no libtablet.a in {}{relative}, so nothing can be linked: run `bash tools/library.sh` in the repository, \
         which writes target/staticlib/libtablet.a, or take the archive of a release and name its folder in YUBI_LIB_DIR",
        folder.display()
    )
}

/// What to say where the library is for another machine than the build.
pub fn unlike_target(target: &str, arch: &str, machine: Option<&str>) -> Option<String> {
    let machine = machine.filter(|&machine| machine != arch)?;
    Some(format!(
        "this build is for {target}, and libtablet.a is for {machine}: build with --target {machine}-unknown-linux-gnu, or \
         name in YUBI_LIB_DIR the folder of an archive for {arch}; `bash tools/library.sh` makes it for x86_64, tools/arm.sh \
         for aarch64"
    ))
}

/// What to say on a system that the archive wasn't tried on.
pub fn untried(target: &str, os: &str) -> Option<String> {
    (os != "linux").then(|| format!("libtablet.a is made for Linux, and was not tried on {target}"))
}

/// The machine of an archive, as Rust names it: that of its first member in ELF, or none that is known.
pub fn machine(archive: &[u8]) -> Option<&'static str> {
    let mut rest = archive.strip_prefix(b"!<arch>\n")?;
    // A member is a head of 60 bytes, its length in decimal in 10 of them from 48 on, then its bytes and one to make them even.
    while rest.len() > 60 {
        let (head, behind) = rest.split_at(60);
        let length: usize = std::str::from_utf8(&head[48..58]).ok()?.trim().parse().ok()?;
        let member = behind.get(..length)?;
        if member.starts_with(b"\x7fELF") && length > 20 {
            return match u16::from_le_bytes([member[18], member[19]]) {
                62 => Some("x86_64"),
                183 => Some("aarch64"),
                _ => None,
            };
        }
        rest = behind.get(length + length % 2..)?;
    }
    None
}
