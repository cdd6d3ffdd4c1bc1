//! Tests of trees.

use llbm::trees::{Entry, Tree};

const TEXT: &str = "d 0755 0 0 /\nd 0711 7 5 /a\nf 4644 0 0 6869 /a/b c\nf 0600 0 0 - /a-\n";

#[test]
fn a_tree_is_read_and_printed() {
    let tree = Tree::parse(TEXT).unwrap();
    assert_eq!(tree.text(), TEXT);
    assert_eq!(tree.get("a/b c"), Some(&Entry { mode: 0o4644, ..Entry::file("/a/b c", b"hi") }));
    assert_eq!(tree.get("/a/c"), None);
}

#[test]
fn what_is_no_tree_is_refused() {
    for text in ["x", "d 0755 0 0", "l 0777 0 0 /a", "f 0644 0 0 6 /a", "f 0644 0 0 - /", "f 0644 0 0 - /a\nf 0644 0 0 - /a/b"] {
        assert!(Tree::parse(text).is_err(), "{text}");
    }
}

#[test]
fn a_difference_has_a_line_for_each_side() {
    let other = Tree::parse("d 0755 0 0 /\nd 0755 7 5 /a\nf 4644 0 0 6869 /a/b c\nf 0644 0 0 ff /z\n").unwrap();
    let lines = ["- /a 0711 7:5 directory", "+ /a 0755 7:5 directory", "- /a- 0600 0:0 \"\"", "+ /z 0644 0:0 1 bytes, ff.."];
    assert_eq!(Tree::parse(TEXT).unwrap().diff(&other).lines().collect::<Vec<_>>(), lines);
    assert_eq!(other.diff(&other), "");
}
