//! Random scripts that go to the edges of what the documentation says.

mod bad_lines;
mod batches;
mod limits;
mod tables;
mod writer;

pub use writer::Writer;

use crate::rng::Rng;
use batches::run_batch;

/// A part of a script: some tables, some batches, some calls that are refused.
#[derive(Clone, Copy, Debug)]
enum Section {
    /// A table at the edge of acceptance, and a batch of it.
    Edge,
    /// Tables that break a limit, or just keep it.
    Limits,
    /// Hyperperiods near the longest.
    Hyperperiod,
    /// A queue that fills up.
    Queue,
    /// A batch without a new table.
    Batch,
}

const SECTIONS: [Section; 12] = [
    Section::Edge,
    Section::Edge,
    Section::Edge,
    Section::Edge,
    Section::Edge,
    Section::Edge,
    Section::Limits,
    Section::Limits,
    Section::Hyperperiod,
    Section::Queue,
    Section::Batch,
    Section::Batch,
];

fn write_section(writer: &mut Writer, section: Section, calls: u64) {
    match section {
        Section::Edge => {
            tables::adopt_at_edge(writer);
            run_batch(writer, calls);
        }
        Section::Limits => limits::adopt_at_limits(writer),
        Section::Hyperperiod => {
            limits::adopt_hyperperiod(writer);
            run_batch(writer, calls / 4);
        }
        Section::Queue => {
            tables::adopt_for_queue(writer);
            run_batch(writer, calls);
        }
        Section::Batch => run_batch(writer, calls),
    }
}

/// One section that hands in all its tokens and empties the lists.
pub fn write_closed_section(writer: &mut Writer, calls: u64) {
    let section = writer.rng.pick(&SECTIONS);
    write_section(writer, section, calls);
    batches::hand_in_all(writer);
    writer.clear();
}

/// The number of calls that a batch aims at: mostly few.
fn batch_calls(rng: &mut Rng) -> u64 {
    match rng.below(100) {
        0 => 2000 + rng.below(4000),
        1..=9 => 300 + rng.below(500),
        10..=49 => 80 + rng.below(200),
        _ => 15 + rng.below(60),
    }
}

/// The random script of a seed and an index, with the fields of a line written oddly in some.
pub fn script(seed: u64, index: u64) -> Vec<u8> {
    let mut mixer = Rng::new(seed);
    let rng = Rng::new(mixer.draw() ^ index.wrapping_mul(0xD6E8_FEB8_6659_FD93));
    let mut writer = Writer::new(rng);
    if index % 4000 == 7 {
        bad_lines::exhaust_calls(&mut writer, index % 8000 != 7);
        return writer.finish();
    }
    if writer.rng.below(300) == 0 {
        return bad_lines::nothing(&mut writer.rng);
    }
    writer.choose_style();
    for _ in 0..1 + writer.rng.below(3) {
        let section = writer.rng.pick(&SECTIONS);
        let calls = batch_calls(&mut writer.rng);
        write_section(&mut writer, section, calls);
    }
    if writer.rng.chance(70) {
        batches::hand_in_all(&mut writer);
    }
    if writer.rng.chance(20) {
        bad_lines::end_badly(&mut writer);
    }
    writer.finish()
}
