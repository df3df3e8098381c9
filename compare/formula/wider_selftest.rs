//! The signs of the kinds behind the first seven by hand: node lists, what is near to them, what they say of a model.

use super::answering::{answer, judging_case, part_case, printing_case, reading_case};
use super::{reading, wrong};
use crate::kinds::Kinds;
use crate::model::joined;

pub fn run() {
    by_hand();
    outside();
    limits();
    parts();
    judging();
}

fn answered(case: Vec<u8>) -> String {
    answer(&case).expect("a case about formulas")
}

fn print(nodes: &[u16]) -> String {
    answered(printing_case(4_096, nodes))
}

/// Texts and their lists written down from the rules, not by this program.
fn by_hand() {
    let pairs: [(&str, &[u16]); 11] = [
        ("AX T", &[0, 0, 0, 9, 0, 0]),
        ("EF p7", &[1, 7, 0, 10, 0, 0]),
        ("AF p0", &[1, 0, 0, 11, 0, 0]),
        ("EG p31", &[1, 31, 0, 12, 0, 0]),
        ("AG p2", &[1, 2, 0, 13, 0, 0]),
        ("(p1|p0)", &[1, 1, 0, 1, 0, 0, 7, 0, 1]),
        ("(p1>p0)", &[1, 1, 0, 1, 0, 0, 8, 0, 1]),
        ("AG (p0>AF p1)", &[1, 0, 0, 1, 1, 0, 11, 1, 0, 8, 0, 2, 13, 3, 0]),
        ("!AX !EF EG T", &[0, 0, 0, 12, 0, 0, 10, 1, 0, 2, 2, 0, 9, 3, 0, 2, 4, 0]),
        ("((p0|p1)>(p2&p3))", &[1, 0, 0, 1, 1, 0, 7, 0, 1, 1, 2, 0, 1, 3, 0, 3, 3, 4, 8, 2, 5]),
        ("E((p0|T) U A(AX p1 U p0))", &[1, 0, 0, 0, 0, 0, 7, 0, 1, 1, 1, 0, 9, 3, 0, 1, 0, 0, 6, 4, 5, 5, 2, 6]),
    ];
    for (text, nodes) in pairs {
        assert_eq!(answered(reading_case(192, text.as_bytes())), format!("answer=0\nnodes={}\n", joined(nodes)));
        assert_eq!(print(nodes), format!("answer=0\ntext={text}\n"));
    }
}

/// Whatever stands in the table of wrong texts is refused; those of before that are read since are not.
fn outside() {
    for text in wrong::texts(Kinds::All) {
        assert_eq!(reading::read(&text).err(), Some(20), "{}", String::from_utf8_lossy(&text));
    }
    assert_eq!(answered(reading_case(192, wrong::READ_SINCE[0])), "answer=0\nnodes=0,0,0,9,0,0\n");
    assert_eq!(answered(reading_case(192, wrong::READ_SINCE[1])), "answer=0\nnodes=0,0,0,0,0,0,7,0,1\n");
    // No node before it, an unused number, the node itself, a shared one, the right part before the left one.
    for kind in 7..=13 {
        assert_eq!(print(&[kind, 0, 0]), "answer=20\n");
        assert_eq!(print(&[0, 0, 0, kind, 0, 1]), "answer=20\n");
        assert_eq!(print(&[0, 0, 0, kind, 1, 0]), "answer=20\n");
        assert_eq!(print(&[0, 0, 0, 1, 0, 0, kind, 1, 0]), "answer=20\n");
    }
    assert_eq!(print(&[0, 0, 0, 7, 0, 0]), "answer=20\n");
    assert_eq!(print(&[0, 0, 0, 8, 0, 0]), "answer=20\n");
    assert_eq!(print(&[0, 0, 0, 14, 0, 0]), "answer=20\n");
    assert_eq!(print(&[0, 0, 0, 1, 0, 0, 14, 0, 1]), "answer=20\n");
    assert_eq!(print(&[0, 0, 0, 269, 0, 0]), "answer=20\n");
}

fn limits() {
    let number = |text: String| answered(reading_case(192, text.as_bytes())).lines().next().unwrap()[7..].to_string();
    assert_eq!(number("AG ".repeat(63) + "T"), "0");
    assert_eq!(number("AG ".repeat(64) + "T"), "10");
    assert_eq!(number("AG ".repeat(1_365) + "T"), "10");
    assert_eq!(number("AG ".repeat(1_365) + "!T"), "20");
    assert_eq!(number("AG ".repeat(64)), "20");
    assert_eq!(number("(T>".repeat(31) + "T" + &")".repeat(31)), "0");
    assert_eq!(number("(T>".repeat(31) + "EF T" + &")".repeat(31)), "0");
    assert_eq!(number("(T|".repeat(32) + "T" + &")".repeat(32)), "10");
    assert_eq!(number("(T|".repeat(32) + "T" + &")".repeat(31)), "20");
}

/// AG (p5>EF T), the parts node by node, and a node behind it that is no part.
fn parts() {
    let list = [1, 5, 0, 0, 0, 0, 10, 1, 0, 8, 0, 2, 13, 3, 0, 9, 1, 0];
    let part = |node: usize| answered(part_case(4_096, node, &list));
    let expected = ["0\ntext=p5", "0\ntext=T", "0\ntext=EF T", "0\ntext=(p5>EF T)", "0\ntext=AG (p5>EF T)", "20", "20"];
    (0..7).for_each(|node| assert_eq!(part(node), format!("answer={}\n", expected[node])));
}

/// The first night: from state 0 the walk 0,1, where p0 is unknown and then true, from state 1 the walk 1,1.
fn judging() {
    let model = "states=2\natoms=1\ninit=10\nlabel=U\nlabel=T\nedges=2\nedge=0,1\nedge=1,1\nnodes=1\nnode=14,9,9\n";
    let judged = |formula: &str| answered(judging_case(formula.as_bytes(), model.as_bytes()));
    let pairs = [
        ("AX p0", "TT"),
        ("EF p0", "TT"),
        ("AF p0", "TT"),
        ("EG p0", "UT"),
        ("AG p0", "UT"),
        ("EF !p0", "UF"),
        ("AF !p0", "UF"),
        ("EG !p0", "FF"),
        ("AG !p0", "FF"),
        ("(p0|!p0)", "UT"),
        ("(p0|AX p0)", "TT"),
        ("(p0>!p0)", "UF"),
        ("(!p0>p0)", "UT"),
        ("(p0>AG p0)", "UT"),
        ("(AX p0>p0)", "UT"),
        ("(p0>AX p0)", "TT"),
        ("AG (p0>AX !p0)", "FF"),
        ("EF (p0>AX !p0)", "UF"),
    ];
    for (formula, row) in pairs {
        assert_eq!(judged(formula), format!("answer=0\nrow={row}\nmodel={}\n", &row[..1]), "{formula}");
    }
    assert_eq!(judged("AG p1"), "answer=12\n");
    assert_eq!(judged("AGp0"), "answer=20\n");
    assert_eq!(judged("(p0->p0)"), "answer=20\n");
}
