//! Runs of the command program itself, ../target/bin/lift: what it reads and writes as a process, which no proof covers.
#![cfg(all(feature = "linked", unix))]

mod forms;

use std::fs;
use std::io::{Read, Write};
use std::path::{Path, PathBuf};
use std::process::{Child, Command, Stdio};
use std::thread;
use std::time::{Duration, Instant};

use forms::OTHER_FORMS;
use host::lift::{lift, LARGEST_INPUT};
use host::random::Random;
use host::texts::{of_lines, of_most_lines, printed};

fn project() -> PathBuf {
    Path::new(env!("CARGO_MANIFEST_DIR")).join("..")
}

fn program() -> PathBuf {
    let program = project().join("target/bin/lift");
    assert!(program.exists(), "{} is missing: `bin/lift </dev/null` builds it", program.display());
    program
}

/// What the program prints, as shown text.
fn run(input: &[u8]) -> String {
    printed(&program(), input).unwrap().escape_ascii().to_string()
}

fn shown(output: &[u8]) -> String {
    output.escape_ascii().to_string()
}

#[test]
fn empty_input() {
    assert_eq!(run(b""), "");
}

#[test]
fn a_last_line_without_a_line_feed() {
    assert_eq!(run(b"O 1"), shown(b"O 0 1\n"));
    assert_eq!(run(b"N"), shown(b"R 8\n"));
    assert_eq!(run(b"O 1\nO 2"), shown(b"O 0 1\nO 1 1\n"));
    assert_eq!(run(b"O 1\n\n"), shown(b"O 0 1\n?\n"));
    assert_eq!(run(b"\n"), shown(b"?\n"));
}

#[test]
fn the_largest_input() {
    let lines = "N\n".repeat(LARGEST_INPUT / 2);
    assert_eq!(run(lines.as_bytes()), shown("R 8\n".repeat(LARGEST_INPUT / 2).as_bytes()));
    assert_eq!(run(&[b'\n'; LARGEST_INPUT]), shown("?\n".repeat(LARGEST_INPUT).as_bytes()));
    assert_eq!(run(&[b'O'; LARGEST_INPUT]), shown(b"?\n"));
    // The last command ends with the last byte that is read.
    let open_end = "?".repeat(LARGEST_INPUT - 4) + "\nO 7";
    assert_eq!(run(open_end.as_bytes()), shown(b"?\nO 0 1\n"));
}

#[test]
fn one_byte_more() {
    for length in [LARGEST_INPUT + 1, LARGEST_INPUT + 2, 100_000, 1_000_000] {
        assert_eq!(run(&"N\n".repeat(length / 2 + 1).as_bytes()[..length]), shown(b"? input\n"), "{length}");
        assert_eq!(run(&vec![b'\n'; length]), shown(b"? input\n"), "{length}");
    }
}

#[test]
fn lines_of_any_other_form() {
    for &line in OTHER_FORMS {
        assert_eq!(run(line), shown(b"?\n"), "{:?}", line.escape_ascii());
        let between = [b"O 1\n", line, b"\nO 2\n"].concat();
        assert_eq!(run(&between), shown(b"O 0 1\n?\nO 1 1\n"), "{:?}", line.escape_ascii());
    }
}

/// Every byte put into a command at every place, and in the place of each of its bytes.
#[test]
fn every_byte_at_every_place() {
    for command in [&b"O 10"[..], b"P 0 1 1 90", b"C 0 1", b"N"] {
        for replaced in [0, 1] {
            let mut input = b"O 3\n".to_vec();
            for place in 0..=command.len() - replaced {
                for byte in 0..=255 {
                    input.extend([&command[..place], &[byte], &command[place + replaced..], b"\n"].concat());
                }
            }
            assert!(input.len() <= LARGEST_INPUT);
            assert_eq!(run(&input), shown(&lift(&input)), "{:?}", command.escape_ascii());
        }
    }
}

#[test]
fn bytes_that_are_no_text() {
    let mut random = Random::new(31);
    for length in [1, 2, 3, 100, 4_096, 8_191, 8_192, 8_193, LARGEST_INPUT - 1, LARGEST_INPUT] {
        let bytes: Vec<u8> = (0..length).map(|_| random.number() as u8).collect();
        assert_eq!(run(&bytes), shown(&lift(&bytes)), "{length}");
        let few: Vec<u8> = (0..length).map(|_| random.pick(b"OPCN 0129\n\n\0\xff")).collect();
        assert_eq!(run(&few), shown(&lift(&few)), "{length}");
    }
}

/// Thousands of commands, as many as the largest input holds.
#[test]
fn long_histories() {
    for seed in 0..34 {
        let input = of_most_lines(seed);
        assert!(input.iter().filter(|&&byte| byte == b'\n').count() > 1_000);
        assert_eq!(run(&input), shown(&lift(&input)), "seed {seed}");
    }
}

/// A board is pulled and pushed back: its late disconnect is refused, and both records of the new channel are sent.
#[test]
fn the_replug() {
    let input = fs::read_to_string(project().join("examples/replug.txt")).unwrap();
    let output = String::from_utf8(printed(&program(), input.as_bytes()).unwrap()).unwrap();
    let pairs: Vec<(&str, &str)> = input.lines().zip(output.lines()).collect();
    assert_eq!(pairs.len(), output.lines().count());
    let closes: Vec<&str> = pairs.iter().filter(|pair| pair.0 == "C 0 1").map(|pair| pair.1).collect();
    assert_eq!(closes, ["C 0", "R 2"]);
    let put: Vec<String> = pairs.iter().filter_map(|pair| pair.0.strip_prefix("P 0 2 ")).map(|record| format!("N 0 2 {record} ")).collect();
    let sent: Vec<&str> = pairs.iter().filter(|pair| pair.1.starts_with("N 0 2 ")).map(|pair| pair.1).collect();
    assert_eq!(sent.len(), 2);
    assert!(put.len() == 2 && sent.iter().zip(&put).all(|(sent, put)| sent.starts_with(put)), "{sent:?} {put:?}");
    assert_eq!(output.as_bytes(), lift(input.as_bytes()));
}

/// The program with both ends held by the test. `ignores` says whether it ignores the signal of a closed pipe, as it does under some shells.
fn held(ignores: bool) -> Child {
    let mut command = Command::new("sh");
    command.args(["-c", if ignores { "trap '' PIPE; exec \"$0\"" } else { "exec \"$0\"" }]).arg(program());
    command.stdin(Stdio::piped()).stdout(Stdio::piped()).spawn().unwrap()
}

/// Whether the program ends within a time that no run needs.
fn ends(child: &mut Child) -> bool {
    let begin = Instant::now();
    while begin.elapsed() < Duration::from_secs(20) {
        if child.try_wait().unwrap().is_some() {
            return true;
        }
        thread::sleep(Duration::from_millis(5));
    }
    let _ = child.kill();
    false
}

/// The reader goes away, before the first line or after it: more is left to write than a pipe holds.
#[test]
fn a_closed_output() {
    let input = "\n".repeat(LARGEST_INPUT);
    for ignores in [false, true] {
        for wanted in [0, 2] {
            let mut child = held(ignores);
            let mut output = child.stdout.take().unwrap();
            let mut stdin = child.stdin.take().unwrap();
            if wanted == 0 {
                drop(output);
                stdin.write_all(input.as_bytes()).unwrap();
                drop(stdin);
            } else {
                stdin.write_all(input.as_bytes()).unwrap();
                drop(stdin);
                let mut first = [0; 2];
                output.read_exact(&mut first).unwrap();
                assert_eq!(&first, b"?\n");
                drop(output);
            }
            assert!(ends(&mut child), "the program does not end: ignores {ignores}, read {wanted} bytes");
        }
    }
}

/// A slow reader gets every line: the program waits for it.
#[test]
fn a_slow_output() {
    let input = of_most_lines(5);
    let mut child = held(false);
    let mut stdin = child.stdin.take().unwrap();
    let written = input.clone();
    let writer = thread::spawn(move || stdin.write_all(&written).unwrap());
    let (mut output, mut read) = (child.stdout.take().unwrap(), Vec::new());
    let mut piece = [0; 1_000];
    loop {
        let count = output.read(&mut piece).unwrap();
        read.extend(&piece[..count]);
        if count == 0 {
            break;
        }
        thread::sleep(Duration::from_millis(1));
    }
    writer.join().unwrap();
    assert!(ends(&mut child));
    assert_eq!(shown(&read), shown(&lift(&input)));
}

/// The program ends with status 0 and says nothing beside its output, whatever it read.
#[test]
fn the_status() {
    for input in [&b""[..], b"O 1\n", b"X", &[b'\n'; LARGEST_INPUT + 1]] {
        let mut child = Command::new(program()).stdin(Stdio::piped()).stdout(Stdio::null()).stderr(Stdio::piped()).spawn().unwrap();
        child.stdin.take().unwrap().write_all(input).unwrap();
        let output = child.wait_with_output().unwrap();
        assert!(output.status.success() && output.stderr.is_empty(), "{output:?}");
    }
}

/// The input comes in pieces of these sizes, in turn.
fn in_pieces(input: &[u8], sizes: &[usize]) -> Vec<u8> {
    let mut child = held(false);
    let mut stdin = child.stdin.take().unwrap();
    let mut rest = input;
    for &size in sizes.iter().cycle() {
        let (piece, after) = rest.split_at(size.min(rest.len()));
        stdin.write_all(piece).unwrap();
        // The reader takes the piece before the next one comes, most of the time.
        thread::sleep(Duration::from_micros(20));
        rest = after;
        if rest.is_empty() {
            break;
        }
    }
    drop(stdin);
    child.wait_with_output().unwrap().stdout
}

#[test]
fn input_in_small_pieces() {
    let input = of_lines(7, 250);
    assert_eq!(shown(&in_pieces(&input, &[1])), shown(&lift(&input)));
    let input = of_lines(11, 1_000);
    for sizes in [&[7][..], &[1, 100, 3], &[4_095, 4_097], &[20_000, 1]] {
        assert_eq!(shown(&in_pieces(&input, sizes)), shown(&lift(&input)), "{sizes:?}");
    }
    let mut input = of_most_lines(3);
    input.resize(LARGEST_INPUT, b'\n');
    assert_eq!(shown(&in_pieces(&input, &[997])), shown(&lift(&input)));
    input.push(b'\n');
    assert_eq!(shown(&in_pieces(&input, &[997])), shown(b"? input\n"));
}
