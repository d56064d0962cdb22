use std::collections::HashSet;

use second::figures::{figures, DELETED, INSERTED};

#[test]
fn every_figure_is_right() {
    for figure in figures() {
        assert!(figure.is_right(), "{figure}");
    }
}

#[test]
fn figures_are_told_apart_and_complete() {
    let all = figures();
    let names: HashSet<&str> = all.iter().map(|f| f.name.as_str()).collect();
    assert_eq!(names.len(), all.len());
    for n in ["P1", "P2", "P3", "P4", "P5", "P6", "P7", "P8", "P9", "P10"] {
        assert!(names.contains(n), "{n}");
    }
    for n in ["P11a", "P11b", "P12a", "P12b", "A", "B", "7/14"] {
        assert!(names.contains(n), "{n}");
    }
    assert!(names.iter().any(|n| n.starts_with("10/14 ")));
    let rows = all.iter().filter(|f| f.name.starts_with("002 ")).count();
    assert_eq!(rows, 2 * (INSERTED.len() + DELETED.len()));
}

#[test]
fn a_wrong_figure_says_so() {
    let mut f = figures().swap_remove(0);
    assert_eq!(f.to_string(), "P1: read \"5?\" -> 0 0 none 41469 ok");
    f.expected = "0 0 none 6".to_string();
    assert_eq!(
        f.to_string(),
        "P1: read \"5?\" -> 0 0 none 41469 WRONG expected 0 0 none 6"
    );
}
