//! The pages of the program `matrix` on the independent scheduler, beside pages worked out by hand.

use host::lift::{lift, LARGEST_INPUT};
use host::page::{matrix, page, without_pages};
use host::scheduler::{Scheduler, EDITIONS};
use host::states::{any_sound, door};
use host::texts::{of_lines, text};

fn printed(input: &str) -> String {
    String::from_utf8(matrix(input.as_bytes())).unwrap()
}

/// What is printed from the first N on.
fn sends(input: &str) -> String {
    let output = printed(input);
    output[output.find("\nN").expect("a record is sent") + 1..].to_string()
}

/// A column of two rows; then the order falls, and what is left is scanned under the lower one.
#[test]
fn the_sample() {
    let input = "O 5\nO 3\nO 4\nP 0 1 1014 7\nP 2 1 1014 8\nP 1 1 1014 9\nN\nN\nN\nN\n";
    let output = "\
N 0 1 1014 7 0 1 1
|  order 3   P 1   term 1   column 2
|    slot   weight   >2  1  0
|       0        5    1  .  1   visit
|       2        4    1  .  .   to visit
|       1        3    .  1  1
N 2 1 1014 8 0 1 0
|  order 3   P 1   term 1   column 2
|    slot   weight   >2  1  0
|       2        4    1  .  .   visit
|       1        3    .  1  1
N 1 1 1014 9 0 1 1
|  order 2   P 2   term 2   column 0
|    slot   weight    1 >0
|       1        3    1  1   visit
R 8
";
    assert_eq!(sends(input), output);
}

/// The page that README.md shows is what its command prints.
#[test]
fn the_readme_page() {
    let readme = include_str!("../../README.md");
    let command = readme.lines().find_map(|line| line.trim().strip_prefix("printf '")?.strip_suffix("' | bin/matrix")).expect("a command");
    let page: Vec<&str> = readme.lines().filter_map(|line| line.strip_prefix("    ")).filter(|line| line.starts_with('|')).collect();
    assert!(page.len() > 2 && printed(&command.replace("\\n", "\n")).ends_with(&(page.join("\n") + "\n")));
}

/// Weights 5, 1 and 1. P 2 has no row, so the second call takes two terms. The third sends slot 0's last record at P 4: the order falls to 1 with slots 1 and 2
/// still to visit, and P becomes 4 mod 2.
#[test]
fn p_is_0_with_slots_to_visit() {
    let input = "O 5\nO 1\nO 1\nP 0 1 1014 1\nP 0 1 1014 2\nP 0 1 1014 3\nP 1 1 1014 4\nP 2 1 1014 5\nN\nN\nN\nN\nN\nN\n";
    let output = "\
N 0 1 1014 1 0 1 1
|  order 3   P 1   term 1   column 2
|    slot   weight   >2  1  0
|       0        5    1  .  1   visit
|       1        1    .  .  1
|       2        1    .  .  1
N 0 1 1014 2 1 1 2
|  order 3   P 3   term 1   column 2
|    slot   weight   >2  1  0
|       0        5    1  .  1   visit
|       1        1    .  .  1
|       2        1    .  .  1
N 0 1 1014 3 2 1 1
|  order 3   P 4   term 3   column 0
|    slot   weight    2  1 >0
|       0        5    1  .  1   visit
|       1        1    .  .  1   to visit
|       2        1    .  .  1   to visit
N 1 1 1014 4 0 1 0
|  order 1   P 0   term -   column 0
|    slot   weight   >0
|       1        1    1   visit
|       2        1    1   to visit
N 2 1 1014 5 0 1 0
|  order 1   P 0   term -   column 0
|    slot   weight   >0
|       2        1    1   visit
R 8
";
    assert_eq!(sends(input), output);
}

/// All columns. The second send goes on with a visit whose column has no slot left to visit, so none is scanned.
#[test]
fn order_12() {
    let input = "O 4095\nO 1\nP 0 1 100 1\nP 0 1 100 2\nP 1 1 7 3\nN\nN\nN\n";
    let output = "\
N 0 1 100 1 0 1 1
|  order 12   P 1   term 1   column 11
|    slot   weight  >11 10  9  8  7  6  5  4  3  2  1  0
|       0     4095    1  1  1  1  1  1  1  1  1  1  1  1   visit
|       1        1    .  .  .  .  .  .  .  .  .  .  .  1
N 0 1 100 2 1 0 0
|  order 12   P 1   term 1   column -
|    slot   weight   11 10  9  8  7  6  5  4  3  2  1  0
|       0     4095    1  1  1  1  1  1  1  1  1  1  1  1   visit
|       1        1    .  .  .  .  .  .  .  .  .  .  .  1
N 1 1 7 3 0 1 1
|  order 1   P 1   term 1   column 0
|    slot   weight   >0
|       1        1    1   visit
";
    assert_eq!(sends(input), output);
}

/// A visit that goes on with a slot still to visit keeps its column; a row that joins in between is not of this scan, and stands behind slot 1, which joined before.
#[test]
fn a_visit_goes_on() {
    let input = "O 1\nO 1\nO 1\nP 2 1 100 1\nP 2 1 100 2\nP 1 1 100 3\nN\nP 0 1 100 4\nN\n";
    let output = "\
N 2 1 100 1 0 1 1
|  order 1   P 1   term 1   column 0
|    slot   weight   >0
|       2        1    1   visit
|       1        1    1   to visit
P 0 1
N 2 1 100 2 1 0 0
|  order 1   P 1   term 1   column 0
|    slot   weight   >0
|       2        1    1   visit
|       1        1    1   to visit
|       0        1    1
";
    assert_eq!(sends(input), output);
}

/// Order 12 is held above a row of weight 1 in edition 2: its column 0 has its term in the middle of the round. From there the round ends without another, and the next
/// one has the row's own order.
#[test]
fn a_held_order() {
    let held = "\
|  order 12   P 2048   term 12   column 0
|    slot   weight   11 10  9  8  7  6  5  4  3  2  1 >0
|       1        1    .  .  .  .  .  .  .  .  .  .  .  1   visit
";
    assert_eq!(page(&door(12, 1, &[100])), held);
    let after = "\
|  order 1   P 1   term 1   column 0
|    slot   weight   >0
|       1        1    1   visit
";
    assert_eq!(page(&door(12, 2_048, &[100])), after);
}

#[test]
fn no_page_without_a_send() {
    assert_eq!(printed(""), "");
    assert_eq!(printed("N\nO 4\nX\nN 1\nP 0 1 1 0\nC 0 1\n"), "R 8\nO 0 1\n?\n?\nP 0 1\nC 0\n");
    assert_eq!(matrix(&[b'\n'; LARGEST_INPUT + 1]), b"? input\n");
    assert!(EDITIONS.into_iter().all(|edition| page(&Scheduler::fresh(edition)).is_empty()));
}

/// Without its pages the output is `lift`'s; no line ends in a space; a page has a line for each row beside its two heads, and one visit.
#[test]
fn pages_of_any_text() {
    let mut pages = 0;
    for input in (0..60).map(text).chain((0..30).map(|seed| of_lines(seed, 300))) {
        let output = matrix(&input);
        assert_eq!(without_pages(&output), lift(&input));
        let output = String::from_utf8(output).unwrap();
        assert!(output.lines().all(|line| !line.ends_with(' ')));
        pages += output.lines().filter(|line| line.starts_with("|  order ")).count();
    }
    assert!(pages > 2_000, "{pages}");
    let mut random = host::random::Random::new(61);
    for round in 0..2_000 {
        let state = any_sound(&mut random, EDITIONS[round % 2], 64);
        let page = page(&state);
        let count = if state.rows.is_empty() { 0 } else { state.rows.len() + 2 };
        assert_eq!(page.lines().count(), count);
        assert_eq!(page.lines().filter(|line| line.ends_with("   visit")).count(), count.min(1));
        assert!(page.lines().all(|line| line.starts_with('|') && !line.ends_with(' ')));
    }
}
