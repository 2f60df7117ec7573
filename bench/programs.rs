//! Measures the program datelines against the plain program, by the processor time of their runs from a file; what they print is thrown
//! away. First both must print the same for each input.

mod kinds;
mod random;
mod reader;
mod times;
mod words;

use kinds::KINDS;
use random::Random;
use std::ffi::{c_int, c_long};
use std::fs::File;
use std::io::{self, BufRead, Write};
use std::process::{Command, ExitCode, Stdio};
use std::time::Duration;
use times::{print_heading, print_times, times};

const LINES: usize = 2_000_000;
const ROUNDS: usize = 7;

/// Tells getrusage that the children that have ended are meant.
const CHILDREN: c_int = -1;

unsafe extern "C" {
    /// Fills 18 numbers, on Linux of 64 bits: seconds and microseconds of the program's own time, the same of the system's, and others.
    fn getrusage(who: c_int, usage: *mut [c_long; 18]) -> c_int;
}

fn answer(line: &[u8]) -> u32 {
    reader::line(line, 0).0
}

/// The processor time of all children that have ended.
fn processor_time() -> Duration {
    let mut usage = [0; 18];
    assert_eq!(unsafe { getrusage(CHILDREN, &mut usage) }, 0, "the system tells no times");
    Duration::from_secs((usage[0] + usage[2]) as u64) + Duration::from_micros((usage[1] + usage[3]) as u64)
}

/// A run of a program with the file as its input.
fn command(program: &str, file: &str) -> io::Result<Command> {
    let mut command = Command::new(program);
    command.stdin(File::open(file)?);
    Ok(command)
}

/// The processor time of a run.
fn spent(program: &str, file: &str) -> Duration {
    let before = processor_time();
    let status = command(program, file).and_then(|mut command| command.stdout(Stdio::null()).status());
    assert!(status.is_ok_and(|status| status.success()), "{program} does not answer {file}");
    processor_time() - before
}

/// Sees that both programs print the same for the file, an answer to each line.
fn compare(programs: [&str; 2], file: &str) -> io::Result<()> {
    let [got, other] = programs.map(|program| command(program, file)?.stderr(Stdio::inherit()).output());
    let (got, other) = (got?.stdout, other?.stdout);
    let answers = || got.split(|&byte| byte == b'\n').zip(other.split(|&byte| byte == b'\n'));
    if let Some(line) = answers().position(|(got, other)| got != other) {
        return Err(io::Error::other(format!("the programs differ in the answer to line {} of {file}", line + 1)));
    }
    if got.len() != other.len() || answers().count() != LINES + 1 {
        return Err(io::Error::other(format!("the programs have not one answer to each line of {file}")));
    }
    Ok(())
}

/// Writes the input to the file, and prints what both programs take for it.
fn measure(name: &str, lines: impl Iterator<Item = Vec<u8>>, programs: [&str; 2], file: &str) -> io::Result<()> {
    let mut input = io::BufWriter::new(File::create(file)?);
    for line in lines.take(LINES) {
        input.write_all(&line)?;
        input.write_all(b"\n")?;
    }
    input.into_inner()?;
    compare(programs, file)?;
    let times: [_; 2] = times(ROUNDS, 1, |way, _| spent(programs[way], file));
    print_times(name, LINES, &times);
    Ok(())
}

fn run(programs: [&str; 2], stored: &str, file: &str) -> io::Result<()> {
    let stored: Vec<Vec<u8>> = io::BufReader::new(File::open(stored)?).split(b'\n').collect::<Result<_, _>>()?;
    let mut random = Random(11);
    let (kind, line) = KINDS[0];
    println!("nanoseconds of processor time a line, the least and the median of {ROUNDS} runs over {LINES} lines");
    print_heading("lines", &["datelines", "plain"]);
    measure("the stored ones repeated", stored.iter().cycle().cloned(), programs, file)?;
    measure(kind, std::iter::repeat_with(|| line(&mut random).into_bytes()), programs, file)
}

fn main() -> ExitCode {
    let words: Vec<String> = std::env::args().skip(1).collect();
    let [datelines, plain, stored, file] = &words[..] else {
        eprintln!("usage: programs DATELINES PLAIN STORED FILE");
        return ExitCode::from(2);
    };
    match run([datelines, plain], stored, file) {
        Ok(()) => ExitCode::SUCCESS,
        Err(error) => {
            eprintln!("programs: {error}");
            ExitCode::FAILURE
        }
    }
}
