//! Links the proved lower layers.

include!("../link.rs");

fn main() {
    link(&made("../..", "probe"), "make it with `make probe`");
}
