use std::path::{Path, PathBuf};

/// The archive of that name that `make` leaves at the project's root.
fn made(root: &str, name: &str) -> PathBuf {
    let root = Path::new(env!("CARGO_MANIFEST_DIR")).join(root);
    root.canonicalize().unwrap_or(root).join(format!("target/staticlib/lib{name}.a"))
}

/// Links a static library, wherever it is and whatever its name; the advice is for where it is not.
/// Cargo ends the build where an error was told.
fn link(archive: &Path, advice: &str) {
    let machine = std::env::var("CARGO_CFG_TARGET_ARCH").unwrap_or_default();
    if machine != "x86_64" {
        println!("cargo::error=it is for x86-64 alone, and this build is for {machine}:");
        println!("cargo::error=build with --target x86_64-unknown-linux-gnu");
        return;
    }
    let archive = std::path::absolute(archive).unwrap_or(archive.into());
    println!("cargo::rerun-if-changed={}", archive.display());
    match (archive.parent(), archive.file_name()) {
        (Some(folder), Some(name)) if archive.is_file() => {
            println!("cargo::rustc-link-search=native={}", folder.display());
            println!("cargo::rustc-link-lib=static:+verbatim={}", name.display());
        }
        _ => {
            println!("cargo::error=there is no static library at {}:", archive.display());
            println!("cargo::error={advice}");
        }
    }
}
