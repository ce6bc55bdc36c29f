//! The case-file program against the plain Rust program, on one large file.

use reference::samples::{self, Random};
use std::env;
use std::fs::{self, File};
use std::io::{self, BufWriter, Read, Write};
use std::path::{Path, PathBuf};
use std::process::{Child, Command, Stdio};
use std::thread;
use std::time::{Duration, Instant};

const FILE_BYTES: usize = 100_000_000;
const RUNS: usize = 5;

/// What running a program once took.
#[derive(Clone, Copy)]
struct Run {
    seconds: f64,
    peak_kilobytes: u64,
}

fn programs() -> [(&'static str, PathBuf); 2] {
    let built = PathBuf::from(env!("CARGO_MANIFEST_DIR")).join("../../../target/bin/settle_cases");
    let part = env::var_os("SETTLE_CASES").map_or(built, PathBuf::from);
    let own = env::current_exe().expect("this program has a path");
    [("part", part), ("reference", own.with_file_name("reference_listing"))]
}

/// A file of lines of every shape, longer than [`FILE_BYTES`] by less than a line.
fn write_file(path: &Path) -> io::Result<u64> {
    let mut random = Random::new(100);
    let mut file = BufWriter::new(File::create(path)?);
    let mut line = Vec::new();
    let mut written = 0;
    for election in 1.. {
        samples::line(&mut random, &mut line, election);
        line.push(b'\n');
        file.write_all(&line)?;
        written += line.len();
        if written >= FILE_BYTES {
            break;
        }
    }
    file.flush()?;
    Ok(written as u64)
}

/// The most memory that a running process has had, in kilobytes.
fn peak(child: &Child) -> Option<u64> {
    let status = fs::read_to_string(format!("/proc/{}/status", child.id())).ok()?;
    let line = status.lines().find_map(|line| line.strip_prefix("VmHWM:"))?;
    line.trim().strip_suffix("kB")?.trim().parse().ok()
}

fn run(program: &Path, input: &Path, output: Stdio) -> io::Result<Run> {
    let start = Instant::now();
    let mut child = Command::new(program).stdin(File::open(input)?).stdout(output).spawn()?;
    let mut peak_kilobytes = 0;
    let status = loop {
        peak_kilobytes = peak(&child).unwrap_or(0).max(peak_kilobytes);
        if let Some(status) = child.try_wait()? {
            break status;
        }
        thread::sleep(Duration::from_millis(1));
    };
    assert!(status.success(), "{} ended with {status}", program.display());
    Ok(Run { seconds: start.elapsed().as_secs_f64(), peak_kilobytes })
}

fn same_content(one: &Path, other: &Path) -> io::Result<bool> {
    let (mut one, mut other) = (File::open(one)?, File::open(other)?);
    let (mut left, mut right) = (vec![0; 1 << 20], vec![0; 1 << 20]);
    loop {
        let count = one.read(&mut left)?;
        if count == 0 {
            return Ok(other.read(&mut right)? == 0);
        }
        match other.read_exact(&mut right[..count]) {
            Ok(()) if left[..count] == right[..count] => {}
            Ok(()) => return Ok(false),
            Err(error) if error.kind() == io::ErrorKind::UnexpectedEof => return Ok(false),
            Err(error) => return Err(error),
        }
    }
}

fn measure_in(folder: &Path) -> io::Result<()> {
    let input = folder.join("cases");
    let bytes = write_file(&input)?;
    let programs = programs();
    let listings = ["part", "reference"].map(|name| folder.join(name));
    for ((_, program), listing) in programs.iter().zip(&listings) {
        run(program, &input, File::create(listing)?.into())?;
    }
    assert!(same_content(&listings[0], &listings[1])?, "both programs print the same listing");
    let mut best = [Run { seconds: f64::INFINITY, peak_kilobytes: 0 }; 2];
    for _ in 0..RUNS {
        for ((_, program), best) in programs.iter().zip(&mut best) {
            let run = run(program, &input, Stdio::null())?;
            best.seconds = best.seconds.min(run.seconds);
            best.peak_kilobytes = best.peak_kilobytes.max(run.peak_kilobytes);
        }
    }
    println!("case file of {bytes} bytes, best of {RUNS} runs, same listing");
    for ((name, _), best) in programs.iter().zip(&best) {
        let speed = bytes as f64 / 1e6 / best.seconds;
        println!("{name:<12}{speed:>8.1} MB/s{:>9} kB at most", best.peak_kilobytes);
    }
    println!("ratio of the programs: {:.2}", best[1].seconds / best[0].seconds);
    Ok(())
}

pub fn measure() {
    let missing = programs().into_iter().find(|(_, program)| !program.is_file());
    if let Some((_, program)) = missing {
        panic!("There is no program {}: hosts/bench builds it.", program.display());
    }
    let folder = env::temp_dir().join(format!("additional-pension-bench-{}", std::process::id()));
    fs::create_dir_all(&folder).expect("a folder for the case file");
    let measured = measure_in(&folder);
    fs::remove_dir_all(&folder).expect("the case file can be removed");
    measured.expect("both programs run");
}
