//! The program `turnover`, proved and plain, on the same scripts.

use std::env;
use std::io::{self, Read, Write};
use std::path::{Path, PathBuf};
use std::process::{Command, Stdio};
use std::time::Instant;

use crate::inputs;
use crate::measure::print_row;

/// The argument that makes this program the plain `turnover`.
const REFERENCE: &str = "turnover_reference";

/// Steps of a script.
const STEPS: usize = 1_000_000;

const ROUNDS: usize = 5;

/// Makes a script of so many steps.
type Script = fn(usize) -> Vec<u8>;

/// Whether this process is to be the plain `turnover`.
pub fn is_reference() -> bool {
    env::args().nth(1).is_some_and(|word| word == REFERENCE)
}

/// The plain `turnover` on standard input and output.
pub fn run_reference() -> io::Result<()> {
    let mut input = Vec::new();
    io::stdin().lock().read_to_end(&mut input)?;
    let mut output = io::stdout().lock();
    output.write_all(&reference::turnover::turnover(&input))?;
    output.flush()
}

/// Runs a program on a script's file: its output, and the time in nanoseconds.
fn run(command: &mut Command, script: &Path) -> io::Result<(Vec<u8>, f64)> {
    let input = std::fs::File::open(script)?;
    let start = Instant::now();
    let output = command.stdin(input).stdout(Stdio::piped()).output()?;
    let time = start.elapsed().as_secs_f64() * 1e9;
    if output.status.success() {
        Ok((output.stdout, time))
    } else {
        Err(io::Error::other(format!("{command:?} failed")))
    }
}

fn row(what: &str, program: &Path, script: &[u8]) -> io::Result<()> {
    let file = env::temp_dir().join(format!("melontime-bench-{}", std::process::id()));
    std::fs::write(&file, script)?;
    let (mut library, mut rust) = (Vec::new(), Vec::new());
    for _ in 0..ROUNDS {
        let (ours, time) = run(&mut Command::new(program), &file)?;
        library.push(time);
        let (theirs, time) = run(Command::new(env::current_exe()?).arg(REFERENCE), &file)?;
        rust.push(time);
        assert!(ours == theirs, "the outputs differ");
    }
    std::fs::remove_file(&file)?;
    library.sort_by(f64::total_cmp);
    rust.sort_by(f64::total_cmp);
    let (library, rust) = (library[ROUNDS / 2], rust[ROUNDS / 2]);
    print_row(what, STEPS as f64, library, [Some(rust), None, None]);
    Ok(())
}

/// The rows of `turnover`, where they are wanted and the proved program is
/// there.
pub fn turnover_rows(wanted: &str) -> io::Result<()> {
    let root = PathBuf::from(env!("CARGO_MANIFEST_DIR")).join("../..");
    let program = root.join("crates/turnover/out/turnover");
    let scripts: [(&str, Script); 2] = [
        ("turnover, a lone station, per step", inputs::lone_script),
        (
            "turnover, a network of eight, per step",
            inputs::network_script,
        ),
    ];
    for (what, script) in scripts {
        if what.contains(wanted) && program.exists() {
            row(what, &program, &script(STEPS))?;
        }
    }
    if !program.exists() {
        println!("\nNo row of turnover: crates/turnover/out/turnover is not there (`rt run`).");
    }
    Ok(())
}
