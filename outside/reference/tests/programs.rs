//! Document 01, "Bench table": both programs, run with files, against the paper's own outputs.

mod common;

use std::fs;
use std::io::{self, Read, Write};
use std::path::{Path, PathBuf};
use std::process::{Command, Stdio};

use common::*;
use reference::takelist::Listing;

/// An empty folder for one test.
fn folder(name: &str) -> PathBuf {
    let folder = Path::new(env!("CARGO_TARGET_TMPDIR")).join(name);
    let _ = fs::remove_dir_all(&folder);
    fs::create_dir_all(&folder).expect("a folder of the test's own");
    folder
}

/// Runs a program in a folder and gives its standard output.
fn run(program: &str, folder: &Path, input: &[u8]) -> String {
    let mut child = Command::new(program)
        .current_dir(folder)
        .stdin(Stdio::piped())
        .stdout(Stdio::piped())
        .spawn()
        .expect("the program starts");
    let _ = child.stdin.take().expect("an input").write_all(input);
    let output = child.wait_with_output().expect("the program ends");
    String::from_utf8(output.stdout).expect("plain text")
}

fn takelist(name: &str, wanted: Option<&[u8]>, capture: &[u8]) -> (String, Option<Vec<u8>>) {
    let folder = folder(name);
    if let Some(wanted) = wanted {
        fs::write(folder.join("wanted.bin"), wanted).expect("a job file");
    }
    let lines = run(env!("CARGO_BIN_EXE_reference-takelist"), &folder, capture);
    (lines, fs::read(folder.join("track.bin")).ok())
}

fn cutlist(name: &str, cut: Option<&[u8]>, track: &[u8]) -> (String, Option<Vec<u8>>) {
    let folder = folder(name);
    if let Some(cut) = cut {
        fs::write(folder.join("cut.bin"), cut).expect("a job file");
    }
    let lines = run(env!("CARGO_BIN_EXE_reference-cutlist"), &folder, track);
    (lines, fs::read(folder.join("cut.cap")).ok())
}

fn wanted() -> Vec<u8> {
    [&DESK[..], &HALL4].concat()
}

fn job() -> Vec<u8> {
    [&DESK[..], &A[..28]].concat()
}

/// The capture of the paper's listing.
fn listed() -> Vec<u8> {
    captured(&[(DESK, a_with(7)), (DESK, a_with(9)), (DESK, a_with(8)), (NEXT_DOOR, a_with(10))])
}

#[test]
fn the_worked_listing() {
    let (lines, track) = takelist("listing", Some(&wanted()), &listed());
    assert_eq!(lines, "0 0 0 1 0\n1 0 2 1 1\n2 14 0 0 0\n3 5 0 0 0\n");
    let mut expected = vec![0; 49_152];
    expected[..24].copy_from_slice(&A_RECORD);
    expected[48..72].copy_from_slice(&A_RECORD);
    assert_eq!(track, Some(expected));
}

#[test]
fn a_cut_record_comes_after_the_lines_and_is_not_followed() {
    let capture = listed();
    let (lines, track) = takelist("cut_record", Some(&wanted()), &capture[..1_472 + 100]);
    assert_eq!(lines, "0 0 0 1 0\ncut\n");
    assert_eq!(track.map(|track| track[24..].iter().all(|&byte| byte == 0)), Some(true));
}

/// An input that can't be read.
struct Broken;

impl Read for Broken {
    fn read(&mut self, _: &mut [u8]) -> io::Result<usize> {
        Err(io::ErrorKind::Other.into())
    }
}

#[test]
fn an_input_that_breaks_in_a_record_is_cut() {
    let mut listing = Listing::open(Some(&wanted())).expect("a good name");
    let (capture, mut lines) = (listed(), Vec::new());
    let ended = listing.hear_all(&mut capture[..1_472 + 100].chain(Broken), &mut lines);
    assert!(ended.is_err());
    assert_eq!(lines, b"0 0 0 1 0\ncut\n");
}

#[test]
fn an_empty_capture_gives_a_silent_track() {
    let (lines, track) = takelist("empty", Some(&wanted()), &[]);
    assert_eq!((lines.as_str(), track), ("", Some(vec![0; 49_152])));
}

#[test]
fn a_stated_length_over_1464_is_2() {
    let mut capture = listed();
    capture[4..8].fill(0xFF);
    capture[1_472 + 4..1_472 + 8].copy_from_slice(&1_465_u32.to_le_bytes());
    let (lines, _) = takelist("long", Some(&wanted()), &capture[..2 * 1_472]);
    assert_eq!(lines, "0 2 0 0 0\n1 2 0 0 0\n");
}

#[test]
fn no_stream() {
    let long = [wanted(), vec![0]].concat();
    let bad = [&DESK[..], &[0; 16]].concat();
    let jobs = [None, Some(&long[..]), Some(&long[..19]), Some(&bad[..])];
    for (index, job) in jobs.into_iter().enumerate() {
        let outcome = takelist(&format!("no_stream_{index}"), job, &listed());
        assert_eq!(outcome, ("no stream\n".to_string(), None));
    }
}

#[test]
fn a_track_that_gives_packet_a() {
    let (lines, capture) = cutlist("packet_a", Some(&job()), &A_RECORD);
    assert_eq!((lines.as_str(), capture), ("", Some(captured(&[(DESK, A.to_vec())]))));
}

#[test]
fn no_header() {
    let but = |index: usize, byte: u8| {
        let mut job = job();
        job[index] = byte;
        job
    };
    let whole = job();
    let mut jobs = vec![whole[..31].to_vec(), [&whole[..], &[0]].concat(), vec![]];
    jobs.extend([but(4, 0), but(12, 0), but(8, 0x20), but(11, 0x11), but(11, 0x09)]);
    jobs.extend([but(8, 21), but(11, 4)]);
    for (index, job) in jobs.iter().enumerate() {
        let outcome = cutlist(&format!("no_header_{index}"), Some(job), &[0; 49_153]);
        assert_eq!(outcome, ("no header\n".to_string(), None));
    }
    assert_eq!(cutlist("no_header", None, &A_RECORD), ("no header\n".to_string(), None));
}

#[test]
fn lone_numbers() {
    let mut nine = job();
    nine[10] = 8;
    let outcomes = [
        cutlist("lone_20", Some(&nine), &[0; 25]),
        cutlist("lone_22", Some(&job()), &[0; 25]),
        cutlist("lone_24", Some(&job()), &[]),
        cutlist("lone_24_longer", Some(&nine), &[0; 49_153]),
        cutlist("lone_22_longest", Some(&job()), &[0; 49_151]),
    ];
    let expected = ["20\n", "22\n", "24\n", "24\n", "22\n"].map(|line| (line.to_string(), None));
    assert_eq!(outcomes, expected);
}

#[test]
fn the_longest_track_is_cut() {
    let mut full = job();
    full[9] = 255;
    let (lines, capture) = cutlist("longest", Some(&full), &vec![0; 49_152]);
    assert_eq!((lines.as_str(), capture.map(|capture| capture.len())), ("", Some(8 * 1_472)));
}

#[test]
fn an_older_file_stays_on_a_refusal_and_is_replaced_whole() {
    let folder = folder("older");
    fs::write(folder.join("cut.bin"), job()).expect("a job file");
    fs::write(folder.join("cut.cap"), [7; 5_000]).expect("an older capture");
    let program = env!("CARGO_BIN_EXE_reference-cutlist");
    assert_eq!(run(program, &folder, &[0; 25]), "22\n");
    assert_eq!(fs::read(folder.join("cut.cap")).ok(), Some(vec![7; 5_000]));
    assert_eq!(run(program, &folder, &A_RECORD), "");
    assert_eq!(fs::read(folder.join("cut.cap")).map(|capture| capture.len()).ok(), Some(1_472));
}
