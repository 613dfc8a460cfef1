//! Prints one fixed script: a chart, three samples in a row, random sections without bad lines.

use std::io::{self, Write};
use std::path::Path;
use std::process::ExitCode;

use peer::coverage::Coverage;
use peer::random::{write_closed_section, Writer};
use peer::rng::Rng;
use peer::session::{run_script, Ending};

const SEED: u64 = 20_260;
const SAMPLES: [&str; 3] = ["tables", "retry", "page"];
/// The output that the script aims at.
const LINES: usize = 4_600;
const BYTES: usize = 290_000;
/// The most that one section may add to it.
const SECTION_LINES: usize = 90;

/// How often each refusal and event has to be in it.
const DEMANDED: u64 = 3;

struct Output {
    lines: usize,
    bytes: usize,
    coverage: Coverage,
}

fn main() -> ExitCode {
    match selection() {
        Ok(script) => match io::stdout().write_all(&script) {
            Ok(()) => ExitCode::SUCCESS,
            Err(_) => ExitCode::FAILURE,
        },
        Err(message) => {
            eprintln!("{message}");
            ExitCode::FAILURE
        }
    }
}

fn selection() -> Result<Vec<u8>, String> {
    let mut script = samples()?;
    let mut lines = output(&script)?.lines;
    for seed in SEED.. {
        let longer = with_section(&script, seed)?;
        let now = output(&longer)?;
        if now.lines - lines > SECTION_LINES || now.bytes > BYTES {
            continue;
        }
        (script, lines) = (longer, now.lines);
        if lines >= LINES {
            eprint!("{}", now.coverage);
            let missing = now.coverage.rare(DEMANDED);
            return match missing[..] {
                [] => Ok(script),
                _ => Err(format!("not reached: {}", missing.join(", "))),
            };
        }
    }
    Err("no more seeds".into())
}

/// A chart without a batch, and the samples with `clear` between them and after them.
fn samples() -> Result<Vec<u8>, String> {
    let folder = Path::new(env!("CARGO_MANIFEST_DIR")).join("../samples");
    // Before the first batch there is nothing to show.
    let mut script = b"chart\n".to_vec();
    for name in SAMPLES {
        let file = folder.join(format!("{name}.script"));
        let text = std::fs::read(&file).map_err(|e| format!("{}: {e}", file.display()))?;
        script.extend_from_slice(&text);
        script.extend_from_slice(b"\nclear\n");
    }
    Ok(script)
}

/// A section goes on from where the script before it has left the objects.
fn with_section(script: &[u8], seed: u64) -> Result<Vec<u8>, String> {
    let text = std::str::from_utf8(script).map_err(|e| e.to_string())?;
    let mut writer = Writer::new(Rng::new(seed));
    writer.copy(text);
    writer.copy("\n");
    let calls = 10 + writer.rng.below(50);
    write_closed_section(&mut writer, calls);
    Ok(writer.text().to_vec())
}

fn output(script: &[u8]) -> Result<Output, String> {
    let mut stdout = Vec::new();
    match run_script(script, &mut stdout) {
        Ending::Whole => {}
        ending => return Err(ending.to_string()),
    }
    let text = String::from_utf8_lossy(&stdout);
    let mut coverage = Coverage::default();
    coverage.count(&text, "");
    Ok(Output {
        lines: text.lines().count(),
        bytes: text.len(),
        coverage,
    })
}
