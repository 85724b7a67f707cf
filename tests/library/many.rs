//! Runs examples/rust many times in one process, as tests/library/many.c runs those in C: a file of jobs, each a line of arguments, a
//! line with a length, and so many bytes for standard input. Of each job the length of its output is told in a line, and then
//! that. It stands in src/bin of the example's crate where it is built.

#[allow(dead_code)]
#[path = "../main.rs"]
mod example;

use std::error::Error;
use std::io::{self, BufRead, Read, Write};

fn main() -> Result<(), Box<dyn Error>> {
    let jobs = std::env::args().nth(1).ok_or("many JOBS")?;
    let (mut jobs, mut answers) = (io::BufReader::new(std::fs::File::open(jobs)?), io::BufWriter::new(io::stdout().lock()));
    let mut line = String::new();
    while jobs.read_line(&mut line)? > 0 {
        let given: Vec<String> = line.split_whitespace().map(String::from).collect();
        line.clear();
        jobs.read_line(&mut line)?;
        let mut bytes = vec![0; line.trim().parse()?];
        line.clear();
        jobs.read_exact(&mut bytes)?;
        let mut said = Vec::new();
        example::run(&given, bytes.as_slice(), &mut said)?;
        writeln!(answers, "{}", said.len())?;
        answers.write_all(&said)?;
    }
    Ok(answers.flush()?)
}
