//! What a comparison has seen.

use std::collections::BTreeMap;
use std::fmt;

/// Refusals that a script can reach.
pub const REACHABLE: [u32; 17] = [
    11, 12, 13, 14, 15, 16, 17, 18, 19, 20, 21, 31, 32, 33, 36, 37, 38,
];
pub const EVENTS: u32 = 5;

#[derive(Clone, Debug, Default)]
pub struct Coverage {
    pub scripts: u64,
    pub answers: BTreeMap<&'static str, u64>,
    pub refusals: BTreeMap<u32, u64>,
    pub events: BTreeMap<u32, u64>,
    pub bad_lines: BTreeMap<&'static str, u64>,
    /// Tables taken, by their number of tasks.
    pub tables: BTreeMap<u32, u64>,
    pub charts: u64,
    /// Tables taken by deadline; the others are by rank.
    pub by_deadline: u64,
    pub full_queues: u64,
    pub most: BTreeMap<&'static str, u64>,
}

impl Coverage {
    /// Counts what a script printed.
    pub fn count(&mut self, stdout: &str, stderr: &str) {
        self.scripts += 1;
        let mut tasks = 0;
        let mut before = "";
        for line in stdout.lines() {
            if tasks > 0 && !is_stamp(line) {
                self.count_table(&mut tasks);
            }
            if is_stamp(line) {
                tasks += 1;
                self.by_deadline += u64::from(tasks == 1 && line.ends_with("witness 0"));
            } else if !(line.starts_with("closed") && before.starts_with("work: ")) {
                self.count_line(line);
            }
            before = line;
        }
        self.count_table(&mut tasks);
        if let Some(kind) = bad_kind(stderr) {
            *self.bad_lines.entry(kind).or_default() += 1;
        }
    }

    fn count_table(&mut self, tasks: &mut u32) {
        if *tasks > 0 {
            *self.tables.entry(*tasks).or_default() += 1;
        }
        *tasks = 0;
    }

    fn count_line(&mut self, line: &str) {
        let words: Vec<&str> = line.split(' ').collect();
        let number = |i: usize| words.get(i).and_then(|word| word.parse().ok()).unwrap_or(0);
        let kind = match words[..] {
            ["taken", _] => "taken",
            ["opened"] => "opened",
            ["released", _] => "released",
            ["tick", _, "place", ..] => {
                *self.events.entry(number(5) as u32).or_default() += 1;
                "worked"
            }
            ["closed", ..] => {
                self.at_least("ticks of a batch", number(2));
                self.at_least("retries of a batch", number(10));
                self.at_least("preemptions of a batch", number(12));
                "closed"
            }
            ["no", "token"] => "no token",
            ["reading", reading] => {
                self.full_queues += u64::from(reading == "64");
                "reading"
            }
            ["demand", ..] => "demanded",
            ["refused", ..] => {
                *self.refusals.entry(number(1) as u32).or_default() += 1;
                "refused"
            }
            ["jobs:", ..] | ["no", "batch"] => {
                self.charts += 1;
                return;
            }
            _ => return,
        };
        *self.answers.entry(kind).or_default() += 1;
    }

    fn at_least(&mut self, what: &'static str, number: u64) {
        let most = self.most.entry(what).or_default();
        *most = number.max(*most);
    }

    pub fn add(&mut self, other: &Coverage) {
        fn add_all<K: Copy + Ord>(to: &mut BTreeMap<K, u64>, from: &BTreeMap<K, u64>) {
            for (&key, count) in from {
                *to.entry(key).or_default() += count;
            }
        }
        self.scripts += other.scripts;
        self.charts += other.charts;
        self.by_deadline += other.by_deadline;
        self.full_queues += other.full_queues;
        add_all(&mut self.answers, &other.answers);
        add_all(&mut self.refusals, &other.refusals);
        add_all(&mut self.events, &other.events);
        add_all(&mut self.bad_lines, &other.bad_lines);
        add_all(&mut self.tables, &other.tables);
        for (&what, &number) in &other.most {
            self.at_least(what, number);
        }
    }

    /// Refusals and events that were seen fewer times than that.
    pub fn rare(&self, times: u64) -> Vec<String> {
        let seen = |map: &BTreeMap<u32, u64>, key| map.get(&key).copied().unwrap_or(0);
        let refusals = REACHABLE
            .iter()
            .filter(|&&number| seen(&self.refusals, number) < times)
            .map(|number| format!("refusal {number}"));
        let events = (0..EVENTS)
            .filter(|&number| seen(&self.events, number) < times)
            .map(|number| format!("event {number}"));
        refusals.chain(events).collect()
    }
}

fn is_stamp(line: &str) -> bool {
    line.starts_with("task ") && line.contains(" rank ")
}

fn bad_kind(stderr: &str) -> Option<&'static str> {
    let kinds = [
        ("is no word", "unknown word"),
        ("too few numbers", "too few numbers"),
        ("is left over", "too much"),
        ("is not a number", "not a number"),
        ("a script makes", "too many calls"),
        ("UTF-8", "not text"),
    ];
    let kind = kinds.iter().find(|(said, _)| stderr.contains(said));
    match kind {
        Some((_, kind)) => Some(kind),
        None if stderr.is_empty() => None,
        None => Some("other"),
    }
}

fn write_counts<K: fmt::Display>(
    f: &mut fmt::Formatter<'_>,
    title: &str,
    counts: &BTreeMap<K, u64>,
) -> fmt::Result {
    write!(f, "{title}:")?;
    for (key, count) in counts {
        write!(f, "  {key} {count}")?;
    }
    writeln!(f)
}

impl fmt::Display for Coverage {
    fn fmt(&self, f: &mut fmt::Formatter<'_>) -> fmt::Result {
        let calls: u64 = self.answers.values().sum();
        writeln!(f, "scripts: {}  calls: {calls}", self.scripts)?;
        write_counts(f, "answers", &self.answers)?;
        write_counts(f, "refusals", &self.refusals)?;
        write_counts(f, "events", &self.events)?;
        write_counts(f, "bad lines", &self.bad_lines)?;
        write_counts(f, "tables taken, by tasks", &self.tables)?;
        writeln!(f, "tables taken by deadline: {}", self.by_deadline)?;
        writeln!(f, "charts: {}", self.charts)?;
        writeln!(f, "readings of a full queue: {}", self.full_queues)?;
        write_counts(f, "most", &self.most)
    }
}
