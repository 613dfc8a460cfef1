//! Runs random scripts on the program `scanner` and on the peer, and compares what they print.

use std::fs::{self, File};
use std::path::{Path, PathBuf};
use std::process::{Command, ExitCode, Stdio};
use std::sync::atomic::{AtomicU64, Ordering};
use std::thread;

use peer::coverage::Coverage;
use peer::random::script;
use peer::session::run_script;

const WORKERS: u64 = 2;
/// How often each refusal and event has to be seen, and in how many scripts.
const DEMANDED: (u64, u64) = (100, 10_000);

struct Job {
    scanner: PathBuf,
    folder: PathBuf,
    seed: u64,
    count: u64,
    /// The first script that differs, as far as is known.
    first: AtomicU64,
}

struct Printed {
    stdout: String,
    stderr: String,
    status: i32,
}

struct Difference {
    index: u64,
    what: String,
}

fn main() -> ExitCode {
    match arguments().and_then(|job| compare(&job)) {
        Ok(()) => ExitCode::SUCCESS,
        Err(message) => {
            println!("{message}");
            ExitCode::FAILURE
        }
    }
}

/// SCANNER FOLDER SEED COUNT
fn arguments() -> Result<Job, String> {
    let usage = || "usage: compare SCANNER FOLDER SEED COUNT".to_string();
    let arguments: Vec<String> = std::env::args().skip(1).collect();
    let [scanner, folder, seed, count] = &arguments[..] else {
        return Err(usage());
    };
    Ok(Job {
        scanner: scanner.into(),
        folder: folder.into(),
        seed: seed.parse().map_err(|_| usage())?,
        count: count.parse().map_err(|_| usage())?,
        first: AtomicU64::new(u64::MAX),
    })
}

fn compare(job: &Job) -> Result<(), String> {
    fs::create_dir_all(&job.folder).map_err(|error| error.to_string())?;
    let results: Vec<_> = thread::scope(|scope| {
        let start = |worker| scope.spawn(move || work(job, worker));
        let workers: Vec<_> = (0..WORKERS).map(start).collect();
        workers.into_iter().map(|worker| worker.join()).collect()
    });
    let mut coverage = Coverage::default();
    let mut differences = Vec::new();
    for result in results {
        let (seen, difference) = result.map_err(|_| "a worker panicked")??;
        coverage.add(&seen);
        differences.extend(difference);
    }
    if let Some(first) = differences.iter().min_by_key(|d| d.index) {
        return Err(report(job, first));
    }
    print!("{coverage}");
    let (times, scripts) = DEMANDED;
    let rare = coverage.rare(times);
    if job.count >= scripts && !rare.is_empty() {
        return Err(format!(
            "seen fewer than {times} times: {}",
            rare.join(", ")
        ));
    }
    println!("no difference");
    Ok(())
}

/// Every other script, up to the first that differs.
fn work(job: &Job, worker: u64) -> Result<(Coverage, Option<Difference>), String> {
    let mut coverage = Coverage::default();
    let file = job.folder.join(format!("worker-{worker}.script"));
    for index in (worker..job.count).step_by(WORKERS as usize) {
        if index > job.first.load(Ordering::Relaxed) {
            break;
        }
        let script = script(job.seed, index);
        let theirs = run_scanner(&job.scanner, &file, &script)?;
        let ours = run_peer(&script);
        if let Some(what) = difference(&theirs, &ours) {
            job.first.fetch_min(index, Ordering::Relaxed);
            return Ok((coverage, Some(Difference { index, what })));
        }
        coverage.count(&theirs.stdout, &theirs.stderr);
    }
    Ok((coverage, None))
}

/// The script goes through a file, so that neither side waits for the other.
fn run_scanner(scanner: &Path, file: &Path, script: &[u8]) -> Result<Printed, String> {
    let failed = |error: std::io::Error| format!("{}: {error}", scanner.display());
    fs::write(file, script).map_err(failed)?;
    let output = Command::new(scanner)
        .stdin(File::open(file).map_err(failed)?)
        .stdout(Stdio::piped())
        .stderr(Stdio::piped())
        .output()
        .map_err(failed)?;
    Ok(Printed {
        stdout: String::from_utf8_lossy(&output.stdout).into_owned(),
        stderr: String::from_utf8_lossy(&output.stderr).into_owned(),
        status: output.status.code().unwrap_or(-1),
    })
}

fn run_peer(script: &[u8]) -> Printed {
    let mut stdout = Vec::new();
    let ending = run_script(script, &mut stdout);
    Printed {
        stdout: String::from_utf8_lossy(&stdout).into_owned(),
        stderr: ending.to_string(),
        status: i32::from(ending.status()),
    }
}

fn difference(theirs: &Printed, ours: &Printed) -> Option<String> {
    first_line("stdout", &theirs.stdout, &ours.stdout)
        .or_else(|| first_line("stderr", &theirs.stderr, &ours.stderr))
        .or_else(|| {
            (theirs.status != ours.status)
                .then(|| format!("status: scanner {}, peer {}", theirs.status, ours.status))
        })
}

/// The first line in which two texts differ, line ends included.
fn first_line(name: &str, theirs: &str, ours: &str) -> Option<String> {
    if theirs == ours {
        return None;
    }
    let (mut their_lines, mut our_lines) = (theirs.split('\n'), ours.split('\n'));
    let mut line = 1;
    loop {
        let (their, our) = (their_lines.next(), our_lines.next());
        if their != our {
            let show = |text: Option<&str>| text.map_or("(end)".into(), |t| format!("{t:?}"));
            return Some(format!(
                "{name} line {line}:\n  scanner: {}\n  peer:    {}",
                show(their),
                show(our)
            ));
        }
        line += 1;
    }
}

fn report(job: &Job, difference: &Difference) -> String {
    let Difference { index, what } = difference;
    let file = job
        .folder
        .join(format!("differs-{}-{index}.script", job.seed));
    let written = fs::write(&file, script(job.seed, *index));
    let place = match written {
        Ok(()) => file.display().to_string(),
        Err(error) => format!("not written: {error}"),
    };
    format!("script {index} of seed {}: {place}\n{what}", job.seed)
}
