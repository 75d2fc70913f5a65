//! Always-quoted symbols: what is quoted and what is not, that it reads back and is measured, and that without the setting all is as ever.

use crate::check::*;
use crate::random::Random;
use crate::tapes::*;
use lechuqta::*;
use std::collections::HashSet;

pub const QUOTED: WriteOptions = WriteOptions::new().quoted(true);

/// With the setting a tape has this text in a layout, reads back from it, and is told its length.
fn streams(layout: Layout, tape: &[u8], text: &str) {
    let text = text.as_bytes();
    check_text(tape, text, |t, out| QUOTED.write(layout, t, out));
    check_tape(text, tape, read, |n| n);
    assert_eq!(QUOTED.length(layout, tape), Ok(text.len()));
    assert_eq!(QUOTED.to_text(layout, tape).as_deref(), Ok(text));
    assert_eq!(to_converted(text).as_deref(), Ok(text));
    if layout != Layout::Pretty {
        assert!(text.len() <= 9 * tape.len());
    }
}

/// The same for the tree text.
fn trees(tape: &[u8], text: &str) {
    let text = text.as_bytes();
    check_text(tape, text, |t, out| QUOTED.write_tree(t, out));
    check_tape(text, tape, read, |n| n);
    assert_eq!(QUOTED.tree_length(tape), Ok(text.len()));
    assert_eq!(QUOTED.to_tree_text(tape).as_deref(), Ok(text));
}

/// A symbol, by its text or identifier, in every place where one may stand.
fn everywhere(node: &Node, text: &str) {
    let whole = structure(&[(node.clone(), sexp(&[node.clone(), list(std::slice::from_ref(node))]))]);
    let tape = tape(&[node.clone(), whole.clone(), marker()]);
    streams(Layout::Compact, &tape, &format!("{text} {{{text}: ({text} [{text}, ] ), }} $ion_1_0 "));
    streams(Layout::Lines, &tape, &format!("{text}\n{{{text}: ({text} [{text}, ] ), }}\n$ion_1_0\n"));
    streams(Layout::Pretty, &tape, &format!("{text}\n{{\n  {text}: (\n    {text}\n    [\n      {text},\n    ]\n  ),\n}}\n$ion_1_0\n"));
    if node[0] == 6 || *node == id(0) {
        let noted = annotated(&[node.clone(), node.clone()], whole);
        trees(&single(&noted), &format!("{text}::{text}::{{{text}: ({text} [{text}])}}"));
    }
}

#[test]
fn every_symbol_text() {
    let bare = ["a", "norad", "True", "inf", "$", "_", "$7a", "$ion_1_0_0"];
    let never_bare = ["", "true", "null", "nan", "$7", "$0", "$ion_1_0", "a b", "7up", "+", "é", "日"];
    for text in bare.iter().chain(&never_bare) {
        everywhere(&symbol(text), &format!("'{text}'"));
    }
    everywhere(&symbol("it's \"\\\"\n\0"), r#"'it\'s \"\\\"\n\0'"#);
    everywhere(&symbol("\u{1}\t\u{1f}\u{7f}"), "'\\x01\\t\\x1f\u{7f}'");
    for length in 1..70 {
        let letters = "abcdefghijklmnopqrstuvwxyz_$0123456789".chars().cycle().take(length).collect::<String>();
        everywhere(&symbol(&letters), &format!("'{letters}'"));
        let last = letters[1..].to_owned() + "'";
        everywhere(&symbol(&last), &format!("'{}\\''", &letters[1..]));
    }
}

/// Identifiers and markers are not quoted, nor is what looks like a symbol and is none.
#[test]
fn all_else() {
    for number in [0, 7, 10, u32::MAX] {
        everywhere(&id(number), &format!("${number}"));
    }
    let values = [null(0), null(12), boolean(true), boolean(false), nan(), float(f64::INFINITY), string("a"), string("$7"), clob(b"a"), blob(b"a")];
    let values = tape(&[list(&values), marker(), timestamp(0, [2026, 0, 0, 0, 0, 0], UNKNOWN, 0, 0)]);
    let text = "[null, null.struct, true, false, nan, +inf, \"a\", \"$7\", {{\"a\"}}, {{YQ==}}, ]\n$ion_1_0\n2026T\n";
    streams(Layout::Lines, &values, text);
    assert_eq!(to_text(Layout::Lines, &values).as_deref(), Ok(text.as_bytes()));
    for layout in Layout::ALL {
        streams(layout, &tape(&[]), "");
    }
}

#[test]
fn reads_back() {
    let mut random = Random(9);
    for _ in 0..500 {
        let nodes = random.list_of_values(6);
        let tape = tape(&nodes);
        for layout in Layout::ALL {
            let text = String::from_utf8(QUOTED.to_text(layout, &tape).unwrap()).unwrap();
            streams(layout, &tape, &text);
            if layout == Layout::Lines {
                let due: Vec<_> = nodes.iter().map(|node| Ok(single(node))).collect();
                assert_eq!(lines(text.as_bytes()).map(|line| line.tape).collect::<Vec<_>>(), due);
            }
        }
        let tape = single(&random.value(5, false, true));
        trees(&tape, &String::from_utf8(QUOTED.to_tree_text(&tape).unwrap()).unwrap());
    }
}

#[test]
fn off_is_as_without() {
    let off = [WriteOptions::new(), WriteOptions::default(), QUOTED.quoted(false)];
    assert_eq!(HashSet::from(off).len(), 1);
    assert_ne!(off[0], QUOTED);
    let mut random = Random(10);
    for options in off {
        for _ in 0..100 {
            let tape = tape(&random.list_of_values(6));
            for layout in Layout::ALL {
                let text = to_text(layout, &tape).unwrap();
                check_text(&tape, &text, |t, out| options.write(layout, t, out));
                assert_eq!(options.length(layout, &tape), length(layout, &tape));
                assert_eq!(options.to_text(layout, &tape), Ok(text));
            }
            let tape = single(&random.value(5, false, true));
            let text = to_tree_text(&tape).unwrap();
            check_text(&tape, &text, |t, out| options.write_tree(t, out));
            assert_eq!(options.tree_length(&tape), tree_length(&tape));
            assert_eq!(options.to_tree_text(&tape), Ok(text));
        }
    }
}
