//! Finds the static library `libmilestarling.a`, and refuses a target that it isn't for and a version that lacks what this
//! package needs.

use std::path::{Path, PathBuf};
use std::{env, fs};

/// What stands before the version in the library.
const BEFORE_VERSION: &[u8] = b"milestarling library ";

fn main() {
    println!("cargo:rerun-if-env-changed=MILESTARLING_LIB");
    let target = set_by_cargo("TARGET");
    let served = set_by_cargo("CARGO_CFG_TARGET_ARCH") == "x86_64" && set_by_cargo("CARGO_CFG_TARGET_OS") == "linux";
    assert!(served, "the library is for x86-64 Linux alone, and this build is for {target}");
    let directory = match env::var_os("MILESTARLING_LIB") {
        Some(named) => PathBuf::from(named),
        None => Path::new(&set_by_cargo("CARGO_MANIFEST_DIR")).join("../../target/staticlib"),
    };
    let archive = directory.join("libmilestarling.a");
    // The linker's own complaint wouldn't say where the library comes from.
    assert!(
        archive.is_file(),
        "{} isn't there: make it by `bash tools/library.sh` at the top of the repository, or name its directory in \
         MILESTARLING_LIB",
        archive.display()
    );
    let (found, needed) = (version(&archive), set_by_cargo("CARGO_PKG_VERSION"));
    assert!(
        fits(&found, &needed),
        "{} is of version {found}, and this package needs {needed}: make it anew by `bash tools/library.sh`",
        archive.display()
    );
    println!("cargo:rerun-if-changed={}", archive.display());
    println!("cargo:rustc-link-search=native={}", directory.display());
    println!("cargo:rustc-link-lib=static=milestarling");
}

fn set_by_cargo(name: &str) -> String {
    env::var(name).unwrap_or_else(|_| panic!("cargo sets {name}"))
}

/// The version that an archive says, or that it says none.
fn version(archive: &Path) -> String {
    let bytes = fs::read(archive).unwrap_or_else(|error| panic!("{}: {error}", archive.display()));
    match bytes.windows(BEFORE_VERSION.len()).position(|window| window == BEFORE_VERSION) {
        Some(place) => bytes[place + BEFORE_VERSION.len()..]
            .iter()
            .take_while(|&&byte| byte != 0)
            .map(|&byte| char::from(byte))
            .collect(),
        None => "0.3.3 or earlier".to_owned(),
    }
}

/// The same major and minor number, and no earlier patch.
fn fits(found: &str, needed: &str) -> bool {
    let parts = |version: &str| version.split('.').map(|part| part.parse().ok()).collect::<Option<Vec<u32>>>();
    match (parts(found).as_deref(), parts(needed).as_deref()) {
        (Some([major, minor, patch]), Some([needed_major, needed_minor, needed_patch])) => {
            (major, minor) == (needed_major, needed_minor) && patch >= needed_patch
        }
        _ => false,
    }
}
