//! The grammar's examples by hand, and round trips between text, tree and list.

use super::answering::{answer, judging_case, part_case, printing_case, reading_case};
use super::{damaging, every, growing, listed, lists, reading, wider, wider_selftest};
use crate::random::Random;

pub fn run() {
    by_hand();
    outside();
    limits();
    parts();
    judging();
    round_trips();
    damaged();
    every::short_texts();
    every::short_lists();
    wider_selftest::run();
}

fn answered(case: Vec<u8>) -> String {
    answer(&case).expect("a case about formulas")
}

fn read(text: &str) -> String {
    answered(reading_case(192, text.as_bytes()))
}

fn print(nodes: &[u16]) -> String {
    answered(printing_case(4_096, nodes))
}

/// Texts and their lists written down from the rules, not by this program.
fn by_hand() {
    let pairs: [(&str, &[u16]); 11] = [
        ("T", &[0, 0, 0]),
        ("p0", &[1, 0, 0]),
        ("p31", &[1, 31, 0]),
        ("!T", &[0, 0, 0, 2, 0, 0]),
        ("EX p7", &[1, 7, 0, 4, 0, 0]),
        ("!EX p0", &[1, 0, 0, 4, 0, 0, 2, 1, 0]),
        ("(p1&p0)", &[1, 1, 0, 1, 0, 0, 3, 0, 1]),
        ("(T&T)", &[0, 0, 0, 0, 0, 0, 3, 0, 1]),
        ("E(T U p0)", &[0, 0, 0, 1, 0, 0, 5, 0, 1]),
        ("A(!p2 U EX p3)", &[1, 2, 0, 2, 0, 0, 1, 3, 0, 4, 2, 0, 6, 1, 3]),
        ("((p0&p1)&!p2)", &[1, 0, 0, 1, 1, 0, 3, 0, 1, 1, 2, 0, 2, 3, 0, 3, 2, 4]),
    ];
    for (text, nodes) in pairs {
        let numbers: Vec<String> = nodes.iter().map(u16::to_string).collect();
        assert_eq!(read(text), format!("answer=0\nnodes={}\n", numbers.join(",")));
        assert_eq!(print(nodes), format!("answer=0\ntext={text}\n"));
    }
}

/// A list without a text is refused.
fn outside() {
    for nodes in
        [&[][..], &[0], &[1, 32, 0], &[0, 0, 1], &[2, 0, 0], &[7, 0, 0], &[0, 0, 0, 0, 0, 0], &[0, 0, 0, 3, 0, 0]]
    {
        assert_eq!(print(nodes), "answer=20\n");
    }
    // The right part before the left one; the same with a node that nothing uses.
    assert_eq!(print(&[1, 0, 0, 1, 1, 0, 3, 1, 0]), "answer=20\n");
    assert_eq!(print(&[1, 0, 0, 1, 1, 0, 2, 1, 0]), "answer=20\n");
}

fn limits() {
    let nots = |count: usize| "!".repeat(count) + "T";
    assert!(read(&nots(63)).starts_with("answer=0\n"));
    assert_eq!(read(&nots(64)), "answer=10\n");
    assert_eq!(read(&nots(4_095)), "answer=10\n");
    assert_eq!(read(&nots(4_096)), "answer=20\n");
    assert_eq!(read(&(nots(64) + " ")), "answer=20\n");
    assert_eq!(read(&"(".repeat(4_096)), "answer=20\n");
    assert_eq!(answered(reading_case(191, b"p32")), "answer=24\n");
    assert_eq!(answered(reading_case(191, b"T")), "answer=24\n");
    assert_eq!(answered(printing_case(4_095, &[0, 0, 0])), "answer=24\n");
    assert_eq!(answered(printing_case(4_095, &[])), "answer=24\n");
    // Twice as large with every node: shared nodes are not followed for ever.
    let doubled: Vec<u16> = (0..64).flat_map(|node: u16| [3, node.max(1) - 1, node.max(1) - 1]).collect();
    assert_eq!(print(&doubled), "answer=20\n");
}

fn parts() {
    let list = [1, 5, 0, 0, 0, 0, 2, 1, 0, 3, 0, 2, 9];
    let part = |node: usize| answered(part_case(4_096, node, &list));
    let expected = ["0\ntext=p5", "0\ntext=T", "0\ntext=!T", "0\ntext=(p5&!T)", "20"];
    (0..5).for_each(|node| assert_eq!(part(node), format!("answer={}\n", expected[node])));
    // The operand stands before another node.
    assert_eq!(answered(part_case(4_096, 2, &[0, 0, 0, 1, 0, 0, 2, 0, 0])), "answer=20\n");
    assert_eq!(answered(part_case(4_096, 63, &[0; 192])), "answer=0\ntext=T\n");
    assert_eq!(answered(part_case(4_096, 63, &[0; 193])), "answer=20\n");
}

/// The first night, its formula as text.
fn judging() {
    let model = "states=2\natoms=1\ninit=10\nlabel=U\nlabel=T\nedges=2\nedge=0,1\nedge=1,1\nnodes=1\nnode=9,9,9\n";
    let judged = |formula: &str, model: &str| answered(judging_case(formula.as_bytes(), model.as_bytes()));
    assert_eq!(judged("!p0", model), "answer=0\nrow=UF\nmodel=U\n");
    assert_eq!(judged("!EX p0", model), "answer=0\nrow=FF\nmodel=F\n");
    assert_eq!(judged("p0", model), "answer=0\nrow=UT\nmodel=U\n");
    assert_eq!(judged("EX p0", model), "answer=0\nrow=TT\nmodel=T\n");
    assert_eq!(judged("p1", model), "answer=12\n");
    assert_eq!(judged("p32", model), "answer=20\n");
    assert_eq!(judged("p32", ""), "answer=19\n");
    assert_eq!(judged("p32", &model.replacen("edge=1", "edge=0", 1)), "answer=20\n");
    assert_eq!(judged("p1", &model.replacen("edge=1", "edge=0", 1)), "answer=8\n");
}

fn round_trips() {
    let first = listed::SHAPES.iter().chain(&damaging::TAKEN_APART).chain(&lists::TAKEN_APART);
    for text in first.chain(&wider::SHAPES).chain(&wider::TAKEN_APART).chain(&wider::LISTS_TAKEN_APART) {
        assert_eq!(&reading::read(text.as_bytes()).unwrap().text(), text);
        assert_eq!(print(&lists::of(text)), format!("answer=0\ntext={text}\n"));
    }
    for number in 0..2_000 {
        let mut random = Random::of_case(11, number);
        let nodes = random.between(1, 64);
        let formula = growing::of_size(&mut random, nodes);
        assert_eq!(formula.size(), nodes);
        assert_eq!(reading::read(formula.text().as_bytes()), Ok(formula.clone()));
        assert_eq!(print(&formula.nodes()), format!("answer=0\ntext={}\n", formula.text()));
    }
}

/// Whatever is still accepted after a damage is printed back as it was: `answer` holds to that itself.
fn damaged() {
    for number in 0..20_000 {
        let mut random = Random::of_case(12, number);
        let formula = growing::any(&mut random);
        let (mut text, mut list) = (formula.text().into_bytes(), formula.nodes());
        damaging::damage(&mut random, &mut text);
        lists::damage(&mut random, &mut list);
        answered(reading_case(192, &text));
        if let Some(printed) = print(&list).strip_prefix("answer=0\ntext=") {
            assert_eq!(lists::of(printed.trim_end()), list);
        }
    }
}
