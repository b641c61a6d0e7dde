//! The command program's text on the independent scheduler.

mod forms;

use forms::OTHER_FORMS;
use host::lift::{lift, LARGEST_INPUT};

fn text(input: &str) -> String {
    String::from_utf8(lift(input.as_bytes())).unwrap()
}

#[test]
fn the_listing() {
    let input = "O 1\nO 2\nP 0 1 1014 7\nP 1 1 600 8\nP 1 1 500 9\nN\nN\nC 0 1\nN\nN\nC 0 1\nO 3\nX\n";
    let output = "O 0 1\nO 1 1\nP 0 1\nP 0 1\nP 1 2\nN 1 1 600 8 0 1 1\nN 0 1 1014 7 0 1 1\nC 1\nN 1 1 500 9 1 1 1\n\
                  R 8\nR 2\nO 0 2\n?\n";
    assert_eq!(text(input), output);
    assert_eq!(text(input.trim_end()), output);
}

#[test]
fn lines_of_any_other_form() {
    for &line in OTHER_FORMS {
        assert_eq!(lift(line), b"?\n", "{:?}", line.escape_ascii());
        assert_eq!(lift(&[line, b"\n"].concat()), b"?\n", "{:?}", line.escape_ascii());
    }
    assert_eq!(lift(b"O 1\xff\nO 2\n"), b"?\nO 0 1\n");
}

#[test]
fn numbers_that_a_rule_refuses() {
    assert_eq!(text("O 0\nO 4096\nO 4294967295\nO 4095\n"), "R 6\nR 6\nR 6\nO 0 1\n");
    assert_eq!(text("P 64 1 1 1\nP 4294967295 1 1 1\nP 0 1 1 1\nC 64 0\nC 0 0\nN\n"), "R 1\nR 1\nR 2\nR 1\nR 2\nR 8\n");
    let input = "O 1\nP 0 1 0 1\nP 0 1 1014 4294967295\nC 0 1\nC 0 1\nP 0 1 1 1\nN";
    assert_eq!(text(input), "O 0 1\nR 4\nP 0 1\nC 0\nR 3\nR 3\nN 0 1 1014 4294967295 0 1 1\n");
}

#[test]
fn empty_lines_and_the_last_line() {
    assert_eq!(text(""), "");
    assert_eq!(text("\n"), "?\n");
    assert_eq!(text("\n\nN"), "?\n?\nR 8\n");
    assert_eq!(text("N\n\n"), "R 8\n?\n");
}

#[test]
fn long_input() {
    let mut input = "N\n".repeat(LARGEST_INPUT / 2);
    assert_eq!(text(&input), "R 8\n".repeat(LARGEST_INPUT / 2));
    input.push('\n');
    assert_eq!(text(&input), "? input\n");
    assert_eq!(text(&"O".repeat(LARGEST_INPUT)), "?\n");
    assert_eq!(text(&"O".repeat(LARGEST_INPUT + 1)), "? input\n");
}
