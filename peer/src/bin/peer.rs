//! Reads a script from standard input and prints what each call answers.

use std::io::{self, BufWriter, Read, Write};
use std::process::ExitCode;

use peer::session::{run_script, Ending};

fn main() -> ExitCode {
    let mut script = Vec::new();
    if let Err(error) = io::stdin().read_to_end(&mut script) {
        eprintln!("{error}");
        return ExitCode::FAILURE;
    }
    let mut out = BufWriter::new(io::stdout().lock());
    let mut ending = run_script(&script, &mut out);
    if let Err(error) = out.flush() {
        ending = Ending::Unwritten(error);
    }
    eprint!("{ending}");
    ExitCode::from(ending.status())
}
