//! Links the static library of the functions that only tests use, `lsc_test`.

#[path = "../archives.rs"]
mod archives;

fn main() {
    archives::link("lsc_test");
}
