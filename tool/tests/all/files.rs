//! Files that are large, gone, no files, or can't be written.
use crate::common::{command, run, run_on, sample, Room};
use std::fs::{self, File};
use std::process::{Command, Stdio};

#[test]
fn a_file_of_a_gigabyte_is_read_at_its_start() {
    let room = Room::new();
    let file = room.path("large.sheet");
    File::create(&file).and_then(|large| large.set_len(1 << 30)).expect("a sparse file");
    assert!(run(&["assess", &file]).said(1).contains(": not assessed 4 SheetEdition: "));
    assert!(run(&["assess", "/dev/zero"]).said(1).starts_with("/dev/zero: not assessed 4 SheetEdition: "));
    assert!(run(&["check", "samples/box.sheet", &file]).said(1).starts_with("refused 20 ShellShape: "));
}

#[test]
fn more_bytes_than_are_read_change_nothing() {
    let mut long = sample("box.sheet");
    long.resize(5_000, 0);
    assert!(run_on(&["assess", "-"], &long).said(1).starts_with("-: not assessed 6 SheetLength: "));
    assert_eq!(run_on(&["assess", "-"], &sample("box.sheet")).said(0), "-: 1.92 cubic metres\n");
    assert!(run_on(&["assess", "-"], &[]).said(1).starts_with("-: not assessed 3 SheetShort: "));
}

#[test]
fn a_file_that_can_not_be_read_is_one_line() {
    let room = Room::new();
    let gone = room.path("gone.sheet");
    let folder = room.path("");
    for words in [&["assess"][..], &["explain"], &["desk"], &["text"], &["sheet"], &["draw"]] {
        let of = |file: &str| run(&[words, &[file]].concat()).failed(2).to_string();
        assert_eq!(of(&gone), format!("nibgravel: {gone}: there is no such file"));
        assert_eq!(of(&folder), format!("nibgravel: {folder}: it is a folder, not a file"));
    }
    assert_eq!(
        run(&["check", "samples/box.sheet", &gone]).failed(2),
        format!("nibgravel: {gone}: there is no such file")
    );
    assert_eq!(run(&["faces", &gone, "1"]).failed(2), format!("nibgravel: {gone}: there is no such file"));
    assert_eq!(run(&["book", &gone]).failed(2), format!("nibgravel: {gone}: there is no such file"));
    assert_eq!(run(&["book", "README.md"]).failed(2), "nibgravel: README.md: it is not a folder");
    assert_eq!(run(&["assess", "a\nb"]).failed(2), "nibgravel: a\\nb: there is no such file");
}

#[test]
fn one_unreadable_file_stops_none_of_the_others() {
    let ran = run(&["assess", "samples/box.sheet", "gone", "samples/damaged.sheet", "samples/frame.sheet"]);
    assert_eq!((ran.status, ran.text().lines().count()), (Some(2), 3));
    assert_eq!(ran.err, "nibgravel: gone: there is no such file\n");
    let ran = run(&["assess", "--json", "gone"]);
    assert_eq!(ran.text(), "{\"file\":\"gone\",\"unreadable\":\"there is no such file\"}\n");
}

#[test]
fn a_full_disk_is_an_error() {
    for words in [&["assess", "samples/box.sheet"][..], &["manual"], &["--help"], &["text", "samples/box.sheet"]] {
        let full = File::options().write(true).open("/dev/full").expect("/dev/full");
        let ran = command(words).stdout(full).output().expect("the command runs");
        assert_eq!(ran.status.code(), Some(2));
        assert_eq!(String::from_utf8_lossy(&ran.stderr), "nibgravel: standard output: there is no space left\n");
    }
    for words in
        [&["text", "samples/box.sheet"][..], &["faces", "samples/box.sheet", "1"], &["draw", "samples/box.sheet"]]
    {
        let ran = run(&[words, &["-o", "/dev/full"]].concat());
        assert_eq!(ran.failed(2), "nibgravel: /dev/full: there is no space left");
    }
}

#[test]
fn a_place_that_can_not_be_written_is_one_line() {
    let room = Room::new();
    let within = room.path("no/such/folder/x.txt");
    assert_eq!(
        run(&["text", "samples/box.sheet", "-o", &within]).failed(2),
        format!("nibgravel: {within}: there is no such file")
    );
    let folder = room.path("");
    assert!(run(&["text", "samples/box.sheet", "-o", &folder]).failed(2).contains("it is a folder"));
    assert_eq!(room.names(), [""; 0]);
}

#[test]
fn a_link_stays_a_link() {
    let room = Room::new();
    let target = room.file("target.txt", b"old");
    std::os::unix::fs::symlink(&target, room.path("link.txt")).expect("a link");
    run(&["text", "samples/box.sheet", "-o", &room.path("link.txt")]).said(0);
    assert!(fs::symlink_metadata(room.path("link.txt")).expect("the link").is_symlink());
    assert!(fs::read_to_string(target).expect("the text").contains("v 120 80 200"));
    assert_eq!(room.names(), ["link.txt", "target.txt"]);
}

#[test]
fn a_reader_that_has_gone_is_no_trouble() {
    let mut child = command(&["explain", "samples/nested_cubes.sheet"]);
    let mut child = child.stdout(Stdio::piped()).stderr(Stdio::piped()).spawn().expect("the command runs");
    drop(child.stdout.take());
    let output = child.wait_with_output().expect("the command ends");
    assert_eq!((output.status.code(), output.stderr.as_slice()), (Some(2), &b""[..]));
}

#[test]
fn a_pipe_in_the_file_system_is_read_like_a_file() {
    let room = Room::new();
    let pipe = room.path("pipe");
    assert!(Command::new("mkfifo").arg(&pipe).status().expect("mkfifo").success());
    let written = pipe.clone();
    let writer = std::thread::spawn(move || fs::write(written, sample("box.sheet")));
    assert_eq!(run(&["assess", &pipe]).said(0), format!("{pipe}: 1.92 cubic metres\n"));
    writer.join().expect("the writer").expect("written");
}
