//! Links the static libraries: `lsc` for whole logs, `lsc_breaks` for whether a log breaks a chart,
//! `lsc_live` for live monitors, `lsc_log` for live monitors fed from a log's bytes, `lsc_more` for
//! one record, for what a live monitor would answer and for saving a chart.

#[path = "../archives.rs"]
mod archives;

fn main() {
    for name in ["lsc", "lsc_breaks", "lsc_live", "lsc_log", "lsc_more"] {
        let archive = archives::link(name);
        // For the test that links the C example.
        println!(
            "cargo:rustc-env={}_ARCHIVE={}",
            name.to_uppercase(),
            archive.display()
        );
    }
}
