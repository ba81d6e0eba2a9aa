//! Links the archive libmonterculo.a of the folder that MONTERCULO_ARCHIVE_DIR names. Where there is none the build only
//! warns, so that the crate can be checked and documented; what needs the archive then fails as it is not found.

use std::env;
use std::path::PathBuf;

/// The folder of the archive, or what is missing.
fn archive_dir() -> Result<PathBuf, String> {
    let machine = env::var("CARGO_CFG_TARGET_ARCH").unwrap_or_default();
    if machine != "x86_64" {
        return Err(format!("the archive holds x86-64 code, and this build is for {machine}"));
    }
    let dir = match env::var_os("MONTERCULO_ARCHIVE_DIR") {
        Some(dir) if !dir.is_empty() => PathBuf::from(dir),
        _ => {
            return Err("MONTERCULO_ARCHIVE_DIR is not set: it names the folder of libmonterculo.a, which \
                        `rust/run archive` writes"
                .into())
        }
    };
    // The build runs in the package's own folder, so a path from elsewhere must be whole.
    if dir.is_relative() {
        return Err(format!("MONTERCULO_ARCHIVE_DIR must be a whole path, and is {}", dir.display()));
    }
    let archive = dir.join("libmonterculo.a");
    // Said before it is looked for: cargo then asks again until it is there.
    println!("cargo:rerun-if-changed={}", archive.display());
    if !archive.is_file() {
        return Err(format!("there is no libmonterculo.a in {}, which MONTERCULO_ARCHIVE_DIR names", dir.display()));
    }
    Ok(dir)
}

fn main() {
    println!("cargo:rerun-if-changed=build.rs");
    println!("cargo:rerun-if-env-changed=MONTERCULO_ARCHIVE_DIR");
    match archive_dir() {
        Ok(dir) => println!("cargo:rustc-link-search=native={}", dir.display()),
        Err(missing) => println!("cargo:warning={missing}; without the archive nothing can be built, only checked"),
    }
    // Where the archive is not found, rustc names it here, and no linker its nineteen functions.
    println!("cargo:rustc-link-lib=static=monterculo");
}
