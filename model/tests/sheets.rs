//! The worked examples of `docs/RULES.md` and a few faults, as texts with
//! their run sheets. Fields are parted by spaces here, to be readable.

use model::scenario::MAX_TEXT;
use model::sheet;

fn tabbed(text: &str) -> String {
    text.replace(' ', "\t")
}

/// Each row is a line of the scenario and, but for `rig` and `set`, what its
/// line in the sheet says after letter and head.
fn check(rows: &[(&str, &str)], cells: &str) {
    let mut scenario = String::new();
    let mut expected = String::new();
    for (line, answer) in rows {
        scenario += &format!("{line}\n");
        if !answer.is_empty() {
            expected += &format!("{} {answer}\n", &line[..3]);
        }
    }
    expected += cells;
    let sheet = String::from_utf8(sheet::of(tabbed(&scenario).as_bytes())).unwrap();
    assert_eq!(sheet, tabbed(&expected));
}

fn check_text(text: &str, expected: &str) {
    let sheet = String::from_utf8(sheet::of(tabbed(text).as_bytes())).unwrap();
    assert_eq!(sheet, tabbed(expected), "of {text:?}");
}

#[test]
fn first_worked_example() {
    check(
        &[
            ("rig 2 2 lines plain", ""),
            ("set 0 1450", ""),
            ("set 1 1120", ""),
            ("o 0", "0 1"),
            ("r 0 0", "0 1450"),
            ("o 1", "0 1"),
            ("w 1 0 1500", "0 -"),
            ("w 1 1 1160", "0 -"),
            ("c 1", "0 1"),
            ("r 0 1", "6 1"),
            ("a 0", "0 1"),
            ("r 0 0", "0 1500"),
            ("r 0 1", "0 1160"),
            ("c 0", "0 2"),
        ],
        "cell 0 1500\ncell 1 1160\n",
    );
}

#[test]
fn second_worked_example() {
    check(
        &[
            ("rig 2 2 lines plain", ""),
            ("set 0 5", ""),
            ("set 1 7", ""),
            ("o 0", "0 1"),
            ("j 0", "6 4"),
            ("a 0", "0 1"),
            ("j 0", "6 4"),
            ("a 0", "0 1"),
            ("j 0", "6 4"),
            ("a 0", "0 2"),
            ("r 0 0", "0 5"),
            ("o 1", "0 1"),
            ("w 1 0 6", "0 -"),
            ("c 1", "0 1"),
            ("r 0 1", "6 5"),
            ("a 0", "0 2"),
            ("r 0 0", "0 6"),
            ("w 0 1 9", "0 -"),
            ("r 0 1", "0 9"),
            ("o 1", "0 1"),
            ("r 1 0", "0 6"),
            ("c 0", "1 5"),
            ("r 1 1", "6 3"),
            ("a 1", "7 -"),
            ("p 0", "0 0"),
            ("a 1", "0 1"),
            ("r 1 1", "0 9"),
            ("c 1", "0 2"),
        ],
        "cell 0 6\ncell 1 9\n",
    );
}

#[test]
fn margin_of_the_lines_board() {
    check(
        &[
            ("rig 1 16 lines careful", ""),
            ("o 0", "0 1"),
            ("r 0 3", "0 0"),
            ("w 0 4 -2147483648", "0 -"),
            ("r 0 11", "0 0"),
            ("r 0 4", "0 -2147483648"),
            ("r 0 12", "6 2"),
            ("c 0", "6 2"),
            ("j 0", "5 -"),
            ("a 0", "0 2"),
            ("r 0 12", "0 0"),
            ("r 1 0", "3 -"),
            ("r 0 16", "4 -"),
            ("d 0", "0 -"),
            ("d 0", "5 -"),
        ],
        &(0..16)
            .map(|cell| format!("cell {cell} 0\n"))
            .collect::<String>(),
    );
}

#[test]
fn faults_in_their_order() {
    check_text("", "fault 24 1 0 line\n");
    check_text("\n", "fault 21 1 0 line\n");
    check_text("set 1", "fault 24 1 0 line\n");
    check_text("rig x y z", "fault 23 1 4 field\n");
    check_text("rig 1 1", "fault 22 1 0 line\n");
    check_text("rig 1 1 Lines", "fault 21 1 8 field\n");
    check_text("rig 1 1 lines ", "fault 21 1 14 field\n");
    check_text("rig 9 0 lines none", "fault 21 1 14 field\n");
    check_text("rig 9 1 lines", "fault 11 1 0 rig\n");
    check_text("rig 8 1025 lines", "fault 11 1 0 rig\n");
    check_text("rig 4294967296 1 lines", "fault 23 1 4 field\n");
    check_text("rig 1 1 lines\nset 0 -0", "fault 23 2 20 field\n");
    check_text("rig 1 1 lines\nset 1 2147483648", "fault 23 2 20 field\n");
    check_text("rig 1 1 lines\nset 1 2147483647", "fault 4 2 14 rig\n");
    check_text("rig 1 1 lines\n 0", "fault 21 2 14 line\n");
}

#[test]
fn a_fault_leaves_the_calls_before_it() {
    check_text(
        "rig 1 1 lines\no 9\nset 0 1",
        "o 9 3 -\nfault 24 3 18 line\n",
    );
    check_text("rig 1 1 lines\no 0\nrig", "o 0 0 1\nfault 24 3 18 line\n");
    check_text(
        "rig 1 1 lines\no 0\nr 0 00",
        "o 0 0 1\nfault 23 3 22 field\n",
    );
}

#[test]
fn length_of_the_text() {
    // Lines of four bytes behind a rig line of sixteen.
    let mut text = tabbed("rig 1 10 stores\n");
    while text.len() < MAX_TEXT {
        text += "o\t0\n";
    }
    assert_eq!(text.len(), MAX_TEXT);
    assert!(sheet::of(text.as_bytes()).ends_with(b"cell\t9\t0\n"));
    text += "\n";
    assert_eq!(sheet::of(text.as_bytes()), b"fault\t25\t0\t65536\tline\n");
}
