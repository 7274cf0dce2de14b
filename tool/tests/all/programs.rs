//! Programs that are not the proved one: none of what they say becomes an answer.
use crate::common::{command, run_with, Room};

const HELLO: &[u8] = b"nibgravel pipe 1";
const READ: usize = 952;
const CONVERTED: usize = 1_096;

const COMMANDS: [&[&str]; 7] = [
    &["assess", "samples/box.sheet", "samples/frame.sheet"],
    &["explain", "samples/box.sheet"],
    &["check", "samples/box.sheet", "samples/box_walls.faces"],
    &["desk", "samples/box.sheet"],
    &["faces", "samples/box.sheet", "1"],
    &["text", "samples/box.sheet"],
    &["draw", "samples/box.sheet"],
];

fn told(replies: &[u8], words: &[&str]) -> String {
    run_with(replies, words).failed(2).to_string()
}

#[test]
fn it_is_missing() {
    for words in COMMANDS {
        let ran = command(words).env("NIBGRAVEL_CLERK", "/no/such/program").output().expect("the command runs");
        let line = "nibgravel: the proved program /no/such/program can't be started: there is no such file\n";
        assert_eq!((ran.status.code(), String::from_utf8_lossy(&ran.stderr).as_ref()), (Some(2), line));
        assert_eq!(ran.stdout, b"");
    }
}

#[test]
fn none_is_named_and_none_stands_beside() {
    let ran = command(COMMANDS[0]).env_remove("NIBGRAVEL_CLERK").output().expect("the command runs");
    let line = String::from_utf8_lossy(&ran.stderr);
    assert_eq!((ran.status.code(), ran.stdout.as_slice()), (Some(2), &b""[..]));
    assert!(line.ends_with("/clerk can't be started: there is no such file\n"), "{line}");
}

#[test]
fn it_is_no_program() {
    for (named, why) in [("README.md", "there is no permission"), ("samples", "there is no permission")] {
        let ran = command(COMMANDS[0]).env("NIBGRAVEL_CLERK", named).output().expect("the command runs");
        let line = String::from_utf8_lossy(&ran.stderr);
        assert!(line.ends_with(&format!("/{named} can't be started: {why}\n")), "{line}");
        assert_eq!(ran.status.code(), Some(2));
    }
}

#[test]
fn it_ends_at_once_or_within_a_reply() {
    for words in COMMANDS {
        for length in [0, 1, 15, 16, 17, 50, 16 + READ - 1] {
            let said: Vec<u8> = HELLO.iter().copied().chain([0; READ]).take(length).collect();
            let line = told(&said, words);
            // Some replies are shorter than what was said; that is then no right one.
            let short = line == "nibgravel: the proved program ended before it had answered";
            assert!(
                short || (length > 50 && line.starts_with("nibgravel: the proved program said ")),
                "{words:?} {line}"
            );
        }
    }
}

#[test]
fn it_says_another_hello() {
    for hello in [&b"nibgravel pipe 2"[..], b"NIBGRAVEL PIPE 1", b"Usage: cat [OPTION]... [FILE]...\n", &[0; 5_000]] {
        for words in COMMANDS {
            let line = told(hello, words);
            assert_eq!(line, "nibgravel: the proved program is another one: it does not say \"nibgravel pipe 1\"");
        }
    }
}

#[test]
fn it_says_nothing_but_zeros_or_ones() {
    for byte in [0, 1, 0x7f, 0xff] {
        for words in COMMANDS {
            let said = [HELLO, &[byte; 20_000]].concat();
            assert!(told(&said, words).starts_with("nibgravel: the proved program said "), "{words:?} {byte}");
        }
    }
}

/// Two replies on a tetrahedron's sheet, with some of the words of the second changed.
fn replies(changes: &[(usize, u64)]) -> Vec<u8> {
    let (mut read, mut converted) = ([0; READ], [0; CONVERTED]);
    let put = |bytes: &mut [u8], k: usize, word: u64| bytes[8 * k..8 * k + 8].copy_from_slice(&word.to_be_bytes());
    put(&mut read, 2, 4);
    put(&mut read, 3, 6);
    read[READ - 128..READ - 116].copy_from_slice(&[0, 1, 0, 2, 0, 3, 1, 2, 1, 3, 2, 3]);
    for (k, word) in [0, 0, 4, 4, 0, 1, 216, 0, 0.000036_f64.to_bits()].into_iter().enumerate() {
        put(&mut converted, k, word);
    }
    for (k, corners) in [[0, 1, 2], [0, 1, 3], [0, 2, 3], [1, 2, 3]].into_iter().enumerate() {
        converted[72 + 13 * k..][..13].fill(255);
        converted[72 + 13 * k] = 3;
        converted[73 + 13 * k..][..3].copy_from_slice(&corners);
    }
    put(&mut converted, 113, 0b1111);
    put(&mut converted, 115, 216);
    changes.iter().for_each(|(k, word)| put(&mut converted, *k, *word));
    [HELLO, &read, &converted].concat()
}

#[test]
fn the_stand_in_is_believed_where_it_says_nothing_wrong() {
    assert_eq!(
        run_with(&replies(&[]), &["assess", "samples/box.sheet"]).said(0),
        "samples/box.sheet: 0.000036 cubic metres\n"
    );
}

#[test]
fn it_lies_about_numbers_and_counts() {
    let lies: [&[(usize, u64)]; 10] = [
        &[(0, 28), (7, 28)],
        &[(0, 13), (1, 64), (7, 13)],
        &[(0, 13)],
        &[(2, 200)],
        &[(2, 65), (3, 65)],
        &[(5, 9)],
        &[(5, 0)],
        &[(113, 0b11111)],
        &[(8, f64::NAN.to_bits())],
        // a corner that the drawing doesn't have: 3 corners, 0 1 4
        &[(9, 0x0300_0104_ffff_ffff)],
    ];
    for lie in lies {
        for words in
            [&["assess", "samples/box.sheet"][..], &["explain", "samples/box.sheet"], &["draw", "samples/box.sheet"]]
        {
            assert!(told(&replies(lie), words).starts_with("nibgravel: the proved program said "), "{lie:?}");
        }
    }
}

#[test]
fn a_book_that_is_not_finished_is_not_there() {
    let room = Room::new();
    let dir = room.path("book");
    let line = told(&replies(&[]), &["book", "samples", "-o", &dir]);
    assert_eq!(line, "nibgravel: the proved program ended before it had answered");
    assert_eq!(std::fs::read_dir(&dir).expect("the folder").count(), 0);
}
