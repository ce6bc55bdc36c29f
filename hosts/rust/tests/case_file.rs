//! The case-file program against the reference's listing: whole files, odd files, and files that arrive in pieces.
//!
//! `SETTLE_CASES` names the program, `AP_LINES` the number of lines that are made up.

use reference::samples::{self, Random};
use std::env;
use std::fs::{File, OpenOptions};
use std::io::{Read, Write};
use std::os::fd::OwnedFd;
use std::os::unix::net::UnixStream;
use std::path::PathBuf;
use std::process::{Command, Stdio};
use std::thread;

const SEED: u64 = 20_150_331;
const LINES: u32 = 200_000;

const SOUND: &[u8] = b"     1 50 67  0 2 1  9   125011111";

fn lines() -> u32 {
    samples::how_many("AP_LINES", LINES)
}

fn program() -> PathBuf {
    let built = PathBuf::from(env!("CARGO_MANIFEST_DIR")).join("../../target/bin/settle_cases");
    let program = env::var_os("SETTLE_CASES").map_or(built, PathBuf::from);
    assert!(
        program.is_file(),
        "There is no program {}: build it with 'hosts/build program', or name it in SETTLE_CASES.",
        program.display()
    );
    program
}

/// Feeds the pieces one by one through a pipe and takes what the program prints.
fn run<'a>(pieces: impl Iterator<Item = &'a [u8]> + Send) -> Vec<u8> {
    let mut child = Command::new(program()).stdin(Stdio::piped()).stdout(Stdio::piped()).spawn().expect("the program starts");
    let mut input = child.stdin.take().expect("its standard input is a pipe");
    let mut output = child.stdout.take().expect("its standard output is a pipe");
    let mut printed = Vec::new();
    thread::scope(|scope| {
        scope.spawn(move || {
            for piece in pieces {
                input.write_all(piece).expect("the program reads to the end");
            }
        });
        output.read_to_end(&mut printed).expect("the program's output can be read");
    });
    let status = child.wait().expect("the program ends");
    assert!(status.success(), "{status}");
    printed
}

fn reference_listing(file: &[u8]) -> Vec<u8> {
    let mut listed = Vec::new();
    reference::listing(file, &mut listed).expect("memory can be read and written");
    listed
}

/// Where two listings part, in a few words; nothing if they do not.
fn difference(printed: &[u8], expected: &[u8]) -> Option<String> {
    if printed == expected {
        return None;
    }
    let lines = |listing: &'_ [u8]| -> Vec<String> {
        listing.split_inclusive(|&byte| byte == b'\n').map(|line| String::from_utf8_lossy(line).into_owned()).collect()
    };
    let (printed, expected) = (lines(printed), lines(expected));
    let at = (0..).find(|&line| printed.get(line) != expected.get(line)).expect("they differ");
    Some(format!("line {}: part {:?}, reference {:?}", at + 1, printed.get(at), expected.get(at)))
}

fn assert_listed(what: &str, file: &[u8], pieces: usize) {
    let printed = run(file.chunks(pieces.max(1)));
    assert_eq!(difference(&printed, &reference_listing(file)), None, "{what}, in pieces of {pieces}");
}

/// The number in a field of a listing.
fn listed_number(field: &[u8]) -> usize {
    std::str::from_utf8(field).expect("digits").trim().parse().expect("a number")
}

fn count_refusals(listing: &[u8]) -> [u64; 16] {
    let mut counts = [0; 16];
    for line in listing.chunks_exact(46) {
        counts[listed_number(&line[6..9])] += 1;
    }
    counts
}

/// Of the lump sums with marks: how many are refused 10, 11 and 12, and how many have status 5 and 6.
fn count_lump_sums(file: &[u8], listing: &[u8]) -> [u64; 5] {
    let mut counts = [0; 5];
    let lines = file.split(|&byte| byte == b'\n').zip(listing.chunks_exact(46));
    for (_, listed) in lines.filter(|(line, _)| line.len() > 29 && line[19..22] == *b"  0") {
        match (listed_number(&listed[6..9]), listed_number(&listed[13..15])) {
            (refusal @ 10..=12, _) => counts[refusal - 10] += 1,
            (0, status @ 5..=6) => counts[status - 2] += 1,
            _ => (),
        }
    }
    counts
}

#[test]
fn lines_of_every_shape() {
    let file = samples::case_file(&mut Random::new(SEED), lines());
    let expected = reference_listing(&file);
    assert_eq!(expected.len(), 46 * lines() as usize);
    let counts = count_refusals(&expected);
    println!("case file: {} lines, {} bytes", lines(), file.len());
    for (refusal, count) in counts.iter().enumerate().filter(|(_, count)| **count > 0) {
        println!("  refusal {refusal}: {count}");
    }
    for refusal in [0, 1, 2, 3, 4, 5, 7, 8, 10, 11, 12, 15] {
        assert!(counts[refusal] > 0, "refusal {refusal} is met");
    }
    let lump_sums = count_lump_sums(&file, &expected);
    println!("  lump sums with marks, refused 10, 11, 12 and of status 5, 6: {lump_sums:?}");
    assert!(lump_sums.iter().all(|count| *count > 0), "every outcome of a lump sum's marks is met");
    assert_eq!(difference(&run(std::iter::once(&file[..])), &expected), None);
    // Without the last end of line.
    assert_eq!(difference(&run(std::iter::once(&file[..file.len() - 1])), &expected), None);
}

#[test]
fn odd_pieces() {
    let mut random = Random::new(SEED + 1);
    let file = samples::case_file(&mut random, lines() / 20);
    let expected = reference_listing(&file);
    for size in [7, 45, 285, 286, 287, 1_000, 4_095, 4_096, 4_097, 65_535, 65_536, 65_537] {
        assert_eq!(difference(&run(file.chunks(size)), &expected), None, "pieces of {size}");
    }
    let mut pieces = Vec::new();
    let mut rest = &file[..];
    while !rest.is_empty() {
        let longest = random.pick(&[1, 3, 40, 400, 5_000]);
        let (piece, after) = rest.split_at(rest.len().min(random.from_to(1, longest) as usize));
        pieces.push(piece);
        rest = after;
    }
    println!("odd pieces: {} lines in {} pieces", lines() / 20, pieces.len());
    assert_eq!(difference(&run(pieces.into_iter()), &expected), None);
    let short = &file[..file.len().min(20_000)];
    assert_listed("the first bytes", short, 1);
}

#[test]
fn odd_files() {
    let long = |length: usize| [SOUND, &vec![b'1'; length]].concat();
    let files: [(&str, Vec<u8>); 16] = [
        ("nothing", vec![]),
        ("one end of line", b"\n".to_vec()),
        ("three ends of line", b"\n\n\n".to_vec()),
        ("one byte", b"1".to_vec()),
        ("no end of line", SOUND.to_vec()),
        ("an end of line", [SOUND, b"\n"].concat()),
        ("an empty line at the end", [SOUND, b"\n\n"].concat()),
        ("an empty line at the start", [b"\n", SOUND].concat()),
        ("byte 13 before byte 10", [SOUND, b"\r\n", SOUND, b"\r\n"].concat()),
        ("the longest line", [&long(285 - SOUND.len())[..], b"\n"].concat()),
        ("a byte too long", [&long(286 - SOUND.len())[..], b"\n", SOUND].concat()),
        ("a byte too long, without an end", long(286 - SOUND.len())),
        ("a gigantic line", [&long(20_000_000)[..], b"\n", SOUND, b"\n"].concat()),
        ("a gigantic line without an end", [SOUND, b"\n", &long(5_000_000)[..]].concat()),
        ("only zero bytes", vec![0; 100_000]),
        ("only ends of line", vec![b'\n'; 100_000]),
    ];
    for (what, file) in &files {
        assert_listed(what, file, file.len());
        if file.len() < 1_000 {
            assert_listed(what, file, 1);
        }
        assert_listed(what, file, 10_007);
    }
}

/// Where reading or writing fails, the program says so on standard error and prints nothing more.
#[test]
fn failures_are_said() {
    let folder = File::open(env::temp_dir()).expect("the folder for temporary files can be opened");
    let unread = Command::new(program()).stdin(folder).output().expect("the program starts");
    assert_eq!((&unread.stdout[..], &unread.stderr[..]), (&b""[..], &b"settle_cases: reading failed\n"[..]));
    assert_eq!(unread.status.code(), Some(1));

    let full = OpenOptions::new().write(true).open("/dev/full").expect("there is a full device");
    let mut child =
        Command::new(program()).stdin(Stdio::piped()).stdout(full).stderr(Stdio::piped()).spawn().expect("the program starts");
    child.stdin.take().expect("its standard input is a pipe").write_all(SOUND).expect("the program reads");
    let unwritten = child.wait_with_output().expect("the program ends");
    assert_eq!(unwritten.stderr, b"settle_cases: writing failed\n");
    assert_eq!(unwritten.status.code(), Some(1));
}

/// Where reading fails inside a line, the lines before it are listed and that one is not.
#[test]
fn reading_fails_inside_a_line() {
    let (mut sender, mut receiver) = UnixStream::pair().expect("a pair of streams can be made");
    // Closed before it was read to its end, a stream fails the reader at its other end, once that has what was sent.
    receiver.write_all(b"unread").expect("the stream takes a few bytes");
    sender.write_all(&[SOUND, b"\n", SOUND].concat()).expect("the stream takes two lines");
    drop(sender);
    let cut_off = Command::new(program()).stdin(OwnedFd::from(receiver)).output().expect("the program starts");
    assert_eq!(cut_off.stderr, b"settle_cases: reading failed\n");
    assert_eq!(cut_off.status.code(), Some(1));
    assert_eq!(difference(&cut_off.stdout, &reference_listing(&[SOUND, b"\n"].concat())), None);
}

/// Every length of a line about the edges of a reader's buffer.
#[test]
fn every_line_length() {
    let mut file = Vec::new();
    for length in (0..600).chain(4_000..4_200).chain(65_400..65_600) {
        file.extend(SOUND.iter().chain(std::iter::repeat(&b'1')).take(length));
        file.push(b'\n');
    }
    assert_listed("every length", &file, file.len());
    assert_listed("every length", &file, 4_099);
}
