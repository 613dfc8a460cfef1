//! Whole scripts, with the ledger beside them.

use peer::random::script;
use peer::session::{run_script, Ending};

fn printed(script: &[u8]) -> (String, Ending) {
    let mut stdout = Vec::new();
    let ending = run_script(script, &mut stdout);
    (String::from_utf8_lossy(&stdout).into_owned(), ending)
}

#[test]
fn retry_sample_with_its_chart() {
    let (stdout, ending) = printed(include_bytes!("../../samples/retry.script"));
    let chart: Vec<&str> = stdout.lines().skip(15).collect();
    let expected = [
        "tick                 ",
        "              1234567",
        "task  0 jobs    >   <",
        "        work  ..C=...",
        "task  1 jobs  >      ",
        "        work  =ap-RaC",
    ];
    assert!(matches!(ending, Ending::Whole));
    assert_eq!(chart[..6], expected);
    assert_eq!(
        chart.last(),
        Some(&"closed ticks 7 releases 2 finished 2 pending 0 retries 1 overtakings 1")
    );
}

#[test]
fn bad_line_ends_the_script() {
    let (stdout, ending) = printed(include_bytes!("../../samples/bad-line.script"));
    assert_eq!(stdout, "reading 0\nreading 0\n");
    let said = "line 5: too few numbers after \"demand\": 1 of 2\n";
    assert_eq!((ending.to_string().as_str(), ending.status()), (said, 1));
}

#[test]
fn calls_are_limited() {
    let (stdout, ending) = printed(b"read 0\ntick 1000000\n");
    assert_eq!(stdout, "reading 0\n");
    let said = "line 2: a script makes at most 1000000 calls\n";
    assert_eq!(ending.to_string(), said);
}

#[test]
fn the_law_holds_on_random_scripts() {
    for index in (0..150).filter(|&index| index != 7) {
        let (_, ending) = printed(&script(5, index));
        assert!(!matches!(ending, Ending::LawBroken(_)), "{index}: {ending}");
    }
}
