//! Links the proved static library.

include!("link.rs");

const VARIABLE: &str = "TALCFEATHER_ARCHIVE";

fn main() {
    println!("cargo::rerun-if-env-changed={VARIABLE}");
    let given = std::env::var_os(VARIABLE).filter(|given| !given.is_empty());
    let archive = given.map_or_else(|| made("..", "talcfeather"), PathBuf::from);
    link(
        &archive,
        "make it with `make library`, or set TALCFEATHER_ARCHIVE to the full path of one",
    );
}
