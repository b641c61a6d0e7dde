//! The comparison of texts, on the programs made of the independent scheduler; with a real `lift` and `matrix`, use the programs `lift_compare` and `matrix_compare`.

use std::io::Result;
use std::path::Path;

use host::lift::lift;
use host::page::{matrix, without_pages};
use host::texts::{compare, of_lines, of_most_lines, printed, text};

fn lift_model(input: &[u8]) -> Result<Vec<u8>> {
    printed(Path::new(env!("CARGO_BIN_EXE_lift_model")), input)
}

fn matrix_model(input: &[u8]) -> Result<Vec<u8>> {
    printed(Path::new(env!("CARGO_BIN_EXE_matrix_model")), input)
}

#[test]
fn the_model_programs_pass() {
    let compared = compare(&lift_model, &|input| Ok(lift(input)), text, 1..120).unwrap().unwrap();
    assert_eq!(compared.texts, 119);
    let with_pages = compare(&matrix_model, &|input| Ok(matrix(input)), text, 1..120).unwrap().unwrap();
    assert!(with_pages.lines > compared.lines + 10_000, "{with_pages:?} {compared:?}");
    let without = compare(&|input| Ok(without_pages(&matrix_model(input)?)), &lift_model, text, 1..120).unwrap().unwrap();
    assert_eq!(without, compared);
}

/// `cat` prints the commands themselves: one line is enough to see that.
#[test]
#[cfg(unix)]
fn another_program_does_not() {
    let cat = |input: &[u8]| printed(Path::new("cat"), input);
    for should in [lift, matrix] {
        let difference = compare(&cat, &|input| Ok(should(input)), text, 1..20).unwrap().unwrap_err();
        assert!(difference.contains("should be:"), "{difference}");
        assert!(difference.starts_with("difference after 1 lines") && difference.lines().count() <= 12, "{difference}");
    }
    // A `lift` has no pages.
    let difference = compare(&lift_model, &|input| Ok(matrix(input)), text, 1..20).unwrap().unwrap_err();
    assert!(difference.lines().count() <= 24 && difference.contains("|  order"), "{difference}");
}

/// Every line of a long text is a command, and most calls are accepted. Both limits of waiting records are met from the fresh state.
#[test]
fn long_texts() {
    let (mut full, mut none_shared) = (0, 0);
    for seed in 0..38 {
        let (thousand, most) = (of_lines(seed, 1_000), of_most_lines(seed));
        assert!(thousand.len() < 46_000 && most.starts_with(&thousand), "{seed}");
        assert!((65_490..=65_536).contains(&most.len()), "{seed}: {}", most.len());
        for text in [thousand, most] {
            let count = text.iter().filter(|&&byte| byte == b'\n').count();
            let printed = String::from_utf8(lift(&text)).unwrap();
            assert!(!printed.contains('?'), "{seed}");
            assert_eq!(printed.lines().count(), count, "{seed}");
            let sent = printed.lines().filter(|line| line.starts_with('N')).count();
            assert!(sent > count / 20, "{seed}: {sent} of {count}");
            full += printed.lines().filter(|&line| line == "R 5").count();
            none_shared += printed.lines().filter(|&line| line == "R 13").count();
        }
    }
    assert!(full > 100 && none_shared > 100, "{full} {none_shared}");
}

/// The texts hold every kind of printed line.
#[test]
fn texts_are_of_all_kinds() {
    let mut printed: Vec<u8> = Vec::new();
    let (mut empty, mut long, mut open_end) = (0, 0, 0);
    for seed in 0..400 {
        let text = text(seed);
        empty += u32::from(text.is_empty());
        long += u32::from(text.len() == 65_536);
        open_end += u32::from(text.last().is_some_and(|&last| last != b'\n'));
        printed.extend(lift(&text));
    }
    let lines: Vec<&[u8]> = printed.split(|&byte| byte == b'\n').collect();
    let with = |start: &str| lines.iter().filter(|line| line.starts_with(start.as_bytes())).count();
    for start in ["O ", "P ", "N "] {
        assert!(with(start) > 5, "{start}: {}", with(start));
    }
    let whole = |text: &str| lines.iter().filter(|&&line| line == text.as_bytes()).count();
    for text in ["C 0", "C 1", "R 1", "R 2", "R 3", "R 4", "R 5", "R 6", "R 7", "R 8", "R 13", "?", "? input"] {
        assert!(whole(text) > 5, "{text}: {}", whole(text));
    }
    assert!(empty > 5 && long > 5 && open_end > 5, "{empty} {long} {open_end}");
}
