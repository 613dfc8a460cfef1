//! Lines that end a script.

use super::Writer;
use crate::rng::Rng;
use crate::script::MAX_CALLS;

const LINES: [&str; 40] = [
    "tusk 5 5 0 2",
    "Read 0",
    "TICK",
    "reads 0",
    "0",
    "\"",
    "re\\ad 0",
    "\u{1}",
    "\u{feff}read 0",
    "tick\u{0}",
    "é 1",
    "task 5 5",
    "task",
    "task 1 2 3 # 4",
    "segment 1 2",
    "rule",
    "read",
    "release # 1",
    "demand 0",
    "demand",
    "read 0 1",
    "adopt 1",
    "open x",
    "close close",
    "clear 0",
    "chart 1",
    "tick 1 1",
    "task 1 1 0 1 1",
    "rule 1 \u{7f}",
    "read x",
    "read -1",
    "read 1.0",
    "tick 4294967296",
    "task 5 5 0 99999999999999999999",
    "demand 0 +",
    "demand ++1 0",
    "release 0x1",
    "rule \u{663}",
    "segment 1 2 ' 1",
    "tick 1000001",
];

/// A bad line, and lines after it that are not reached.
pub fn end_badly(writer: &mut Writer) {
    let line: Vec<u8> = match writer.rng.below(12) {
        0 => b"read \xff".to_vec(),
        1 => format!("tick {}", too_many(writer)).into_bytes(),
        2 => b"# \xc3(\ntick".to_vec(),
        _ => writer.rng.pick(&LINES).as_bytes().to_vec(),
    };
    writer.append(&line);
    if writer.rng.chance(90) {
        writer.append(b"\n");
    }
    if writer.rng.chance(50) {
        writer.append(b"\nread 0\nopen\ntick 3\nnonsense\n");
    }
}

/// More ticks than the script has calls left.
fn too_many(writer: &mut Writer) -> u64 {
    let left = MAX_CALLS.saturating_sub(writer.calls());
    writer.rng.pick(&[left + 1, left + 2, u64::from(u32::MAX)])
}

/// All calls that a script can make, in a batch or outside, and one more.
pub fn exhaust_calls(writer: &mut Writer, in_batch: bool) {
    if in_batch {
        writer.append(b"read 0\nread 1\nopen\ntick 999995\nclose\n");
    } else {
        writer.append(b"read 0\nopen\nread 1\nclose\ntick 999995\n");
    }
    writer.append(b"chart\ntick 0\nclear\nread 2\nchart\nread 0\n");
}

/// Scripts that make no call.
pub fn nothing(rng: &mut Rng) -> Vec<u8> {
    let scripts: [&[u8]; 7] = [
        b"",
        b"\n",
        b"\n\n\n",
        b"   ",
        b"# nothing",
        b"\r\n\r\n",
        b"rule 3\ntask 1 1 0 1\nclear",
    ];
    rng.pick(&scripts).to_vec()
}
