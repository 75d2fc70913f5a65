//! Every written text gives its own tape: the layouts, the tree text, and the lines one by one. It is clean, so that the converter leaves it.

use crate::check::*;
use crate::random::Random;
use crate::tapes::*;
use lechuqta::*;

/// Writes a tape in the three layouts and reads each text back; the Lines text also line by line.
fn stream_and_back(nodes: &[Node]) {
    let tape_of_all = tape(nodes);
    for layout in Layout::ALL {
        let text = to_text(layout, &tape_of_all).unwrap();
        check_text(&tape_of_all, &text, |t, out| write(layout, t, out));
        check_tape(&text, &tape_of_all, read, |n| n);
        assert_eq!(to_tape(&text).as_ref(), Ok(&tape_of_all));
        assert_eq!(to_converted(&text).as_ref(), Ok(&text));
        if layout == Layout::Lines {
            let due: Vec<_> = nodes.iter().map(|node| Ok(single(node))).collect();
            assert_eq!(lines(&text).map(|line| line.tape).collect::<Vec<_>>(), due);
        }
    }
}

fn tree_and_back(node: Node) {
    let tape = tape(&[node]);
    let text = to_tree_text(&tape).unwrap();
    check_text(&tape, &text, write_tree);
    check_tape(&text, &tape, read, |n| n);
    assert_eq!(to_tape(&text).as_ref(), Ok(&tape));
    assert_eq!(to_converted(&text).as_ref(), Ok(&text));
}

#[test]
fn every_kind() {
    let scalars: Vec<Node> = [
        (0..13).map(null).collect(),
        vec![boolean(false), boolean(true), int(0), int(-1), int(i64::MAX), int(i64::MIN)],
        vec![nan(), float(f64::INFINITY), float(f64::NEG_INFINITY), float(0.0), float(-0.0)],
        [1.0, 15.0, 100.0, 123_456_789.0, 1e15, 9_007_199_254_740_992.0].iter().flat_map(|&f| [float(f), float(-f)]).collect(),
        vec![decimal(false, u64::MAX, i32::MAX), decimal(true, u64::MAX, i32::MIN), decimal(true, 0, -1), decimal(false, 9, i32::MIN)],
        vec![timestamp(0, [1, 0, 0, 0, 0, 0], UNKNOWN, 0, 0), timestamp(1, [9999, 12, 0, 0, 0, 0], UNKNOWN, 0, 0)],
        vec![timestamp(2, [2000, 2, 29, 0, 0, 0], UNKNOWN, 0, 0), timestamp(3, [2026, 1, 1, 0, 0, 0], 1439, 0, 0)],
        vec![timestamp(4, [2026, 1, 31, 23, 59, 59], -1439, 9, 999_999_999), timestamp(4, [2026, 1, 31, 23, 59, 59], UNKNOWN, 1, 0)],
        (0..=255).flat_map(|byte| [clob(&[byte]), blob(&[byte]), blob(&[byte, !byte]), blob(&[1, byte, 3])]).collect(),
        (0..128).flat_map(|byte| [symbol(&char::from(byte).to_string()), string(&char::from(byte).to_string())]).collect(),
        vec![string("\u{80}\u{7FF}\u{800}\u{D7FF}\u{E000}\u{FFFF}\u{10000}\u{10FFFF}"), id(0)],
    ]
    .concat();
    let containers = [list(&[]), sexp(&[]), structure(&[]), list(&scalars), sexp(&scalars)];
    for node in scalars.iter().chain(&containers) {
        tree_and_back(node.clone());
        tree_and_back(annotated(&[symbol("a"), symbol("it's"), id(0)], node.clone()));
        stream_and_back(std::slice::from_ref(node));
        stream_and_back(&[structure(&[(symbol("a"), node.clone()), (symbol("a"), node.clone())]), marker(), sexp(&[node.clone(), node.clone()])]);
    }
    tree_and_back(annotated(&vec![symbol("a"); 16], int(1)));
    stream_and_back(&[id(0), id(u32::MAX), structure(&[(id(4), id(5))])]);
    stream_and_back(&[scalars, containers.to_vec()].concat());
}

#[test]
fn random_values() {
    let mut random = Random(1);
    for _ in 0..500 {
        stream_and_back(&random.list_of_values(6));
        tree_and_back(random.value(5, false, true));
    }
}
