//! The repository's examples: what `lsc_print` and the reference say for each log against
//! `NAME.expected`, by the chart as it stands there and by the saved chart, if it is not refused.

use lsc_compare::hex;
use lsc_compare::random::{self, Rng};
use lsc_reference::print::{input_of, respond};
use lsc_reference::reader::read_chart;
use std::fs;
use std::path::{Path, PathBuf};

const FEWEST: usize = 20;

fn examples() -> PathBuf {
    Path::new(env!("CARGO_MANIFEST_DIR")).join("../../examples")
}

fn sorted(folder: &Path) -> Vec<PathBuf> {
    let entries = fs::read_dir(folder).unwrap_or_else(|fault| panic!("{folder:?}: {fault}"));
    let mut paths: Vec<PathBuf> = entries.map(|entry| entry.unwrap().path()).collect();
    paths.sort();
    paths
}

/// The folders, one for each chart.
fn folders() -> Vec<PathBuf> {
    let mut paths = sorted(&examples());
    paths.retain(|path| path.is_dir());
    paths
}

fn bytes_of(path: &Path) -> Vec<u8> {
    let text = fs::read_to_string(path).unwrap_or_else(|fault| panic!("{path:?}: {fault}"));
    hex::read(&text).unwrap_or_else(|fault| panic!("{path:?}: {fault}"))
}

fn chart_of(folder: &Path) -> Vec<u8> {
    bytes_of(&folder.join("chart.hex"))
}

/// Prints each log of a folder by a chart; how many there are.
fn print_logs(folder: &Path, chart: &[u8]) -> usize {
    let mut logs = 0;
    for path in sorted(folder) {
        let hex = path.extension().is_some_and(|extension| extension == "hex");
        if !hex || path.ends_with("chart.hex") {
            continue;
        }
        let expected = path.with_extension("expected");
        let expected =
            fs::read_to_string(&expected).unwrap_or_else(|fault| panic!("{expected:?}: {fault}"));
        let input = input_of(chart, &bytes_of(&path));
        assert_eq!(respond(&input), expected, "{path:?}");
        assert_eq!(lsc::print(&input), expected, "{path:?}");
        logs += 1;
    }
    logs
}

#[test]
fn every_example_prints_what_is_expected() {
    let folders = folders();
    let logs = folders
        .iter()
        .map(|folder| print_logs(folder, &chart_of(folder)));
    let logs: usize = logs.sum();
    assert!(logs >= FEWEST, "only {logs} logs under {:?}", examples());
}

#[test]
fn every_chart_is_saved_and_judges_the_same() {
    let mut rng = Rng::new(13);
    let (mut others, mut logs) = (0, 0);
    for folder in folders() {
        let chart = chart_of(&folder);
        let value = match read_chart(&chart) {
            Ok(value) => value,
            Err((number, offset)) => {
                let refused = lsc::saved(&chart).unwrap_err();
                assert_eq!((refused.number, refused.offset), (number, offset));
                continue;
            }
        };
        let saved = lsc::saved(&chart).unwrap();
        assert_eq!(read_chart(&saved), Ok(value), "{folder:?}");
        assert_eq!(lsc::saved(&saved).as_ref(), Ok(&saved), "{folder:?}");
        // The same commands in another order.
        let other = random::reordered(&mut rng, &chart);
        assert_eq!(lsc::saved(&other).as_ref(), Ok(&saved), "{folder:?}");
        others += usize::from(other != saved);
        logs += print_logs(&folder, &saved);
    }
    assert!(others > 0, "every chart came in the saved order");
    assert!(logs >= FEWEST, "only {logs} logs by saved charts");
}
