//! Links the proved static library: the archive that DROVER_LIBRARY names, or
//! else the one that `tools/library` writes in this repository. For another
//! processor than x86-64 there is nothing to link.

use std::env;
use std::path::{Path, PathBuf};
use std::process;

/// Where `tools/library` writes the archive, seen from this folder.
const BUILT_ARCHIVE: &str = "../../target/staticlib/libc_calls.a";

/// The archive to link.
fn archive() -> PathBuf {
    match env::var_os("DROVER_LIBRARY") {
        Some(path) if !path.is_empty() => path.into(),
        _ => Path::new(&env::var_os("CARGO_MANIFEST_DIR").unwrap_or_default()).join(BUILT_ARCHIVE),
    }
}

/// The name by which the linker finds an archive `libNAME.a`.
fn link_name(archive: &Path) -> Option<&str> {
    let file = archive.file_name()?.to_str()?;
    file.strip_prefix("lib")?.strip_suffix(".a")
}

fn stop(archive: &Path, why: &str) -> ! {
    eprintln!("droverboot: {}: {why}.", archive.display());
    eprintln!("Build the archive with `tools/library` in the repository's folder,");
    eprintln!("or let DROVER_LIBRARY be the whole path of an archive libNAME.a.");
    process::exit(1)
}

fn main() {
    println!("cargo:rerun-if-env-changed=DROVER_LIBRARY");
    let processor = env::var("CARGO_CFG_TARGET_ARCH").unwrap_or_default();
    if processor != "x86_64" {
        println!(
            "cargo:warning=the static library is for x86-64: nothing is linked for {processor}"
        );
        return;
    }
    let given = archive();
    println!("cargo:rerun-if-changed={}", given.display());
    let Ok(archive) = given.canonicalize() else {
        stop(&given, "the static library isn't there");
    };
    let (Some(name), Some(folder)) = (link_name(&archive), archive.parent()) else {
        stop(&archive, "the archive's name isn't libNAME.a");
    };
    println!("cargo:rustc-link-search=native={}", folder.display());
    println!("cargo:rustc-link-lib=static={name}");
}
