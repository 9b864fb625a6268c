//! The Rust examples, run as functions.

#[allow(dead_code)]
#[path = "../examples/follow.rs"]
mod follow;
#[allow(dead_code)]
#[path = "../examples/watch.rs"]
mod watch;

#[test]
fn the_examples_watch_chart_u() {
    assert_eq!(watch::CHART, lsc_reference::examples::CHART_U);
    assert_eq!(follow::CHART, lsc_reference::examples::CHART_U);
}

#[test]
fn the_rust_examples_say_what_is_expected() {
    let mut said = Vec::new();
    watch::watch(&mut said).expect("the chart is read");
    let expected = include_str!("../examples/watch.expected");
    assert_eq!(String::from_utf8(said).expect("text"), expected);
    let mut said = Vec::new();
    follow::follow(&mut said).expect("the chart is read");
    let expected = include_str!("../examples/follow.expected");
    assert_eq!(String::from_utf8(said).expect("text"), expected);
}
