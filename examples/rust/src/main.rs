//! The frames of standard input, a line each: address, counter and message in words; or why a segment is none.
//! `uecp-show again` writes the frames as they are sent instead, and `uecp-show answer SITE ENCODER SETS SERVICE ..` the
//! replies of an encoder to them, the services in hexadecimal digits.

mod encoder;
mod uecp;

use encoder::{Answer, Encoder};
use std::error::Error;
use std::io::{self, Read, Write};
use uecp::{Findings, Found};

fn main() -> Result<(), Box<dyn Error>> {
    let given: Vec<String> = std::env::args().skip(1).collect();
    run(&given, io::stdin().lock(), io::stdout().lock())
}

pub(crate) fn run(given: &[String], input: impl Read, out: impl Write) -> Result<(), Box<dyn Error>> {
    match given.first().map(String::as_str) {
        Some("answer") => answer(&given[1..], input, out),
        first => Ok(show(first == Some("again"), input, out)?),
    }
}

fn show(is_again: bool, input: impl Read, mut out: impl Write) -> io::Result<()> {
    for found in Findings::new(input) {
        match found? {
            Found::Frame(frame) if is_again => out.write_all(&frame.encode().expect("a frame that was found"))?,
            Found::Dropped { .. } if is_again => {}
            Found::Frame(frame) => {
                let words = frame.words().ok_or(io::ErrorKind::OutOfMemory)?;
                let address = frame.site * 64 + u16::from(frame.encoder);
                writeln!(out, "{address:04X} {:02X} {words}", frame.counter)?;
            }
            Found::Dropped { fault, place } => writeln!(out, "dropped {fault} {place}")?,
        }
    }
    Ok(())
}

fn answer(given: &[String], mut input: impl Read, mut out: impl Write) -> Result<(), Box<dyn Error>> {
    let [site, number, sets, services @ ..] = given else {
        return Err("answer SITE ENCODER SETS SERVICE ..".into());
    };
    let services: Vec<u8> = services.iter().map(|digits| u8::from_str_radix(digits, 16)).collect::<Result<_, _>>()?;
    let mut encoder = Encoder::new(site.parse()?, number.parse()?, sets.parse()?, &services)?;
    let mut piece = [0; 4096];
    loop {
        match input.read(&mut piece)? {
            0 => return Ok(()),
            count => {
                for answer in encoder.feed(&piece[..count]) {
                    if let Answer::Reply { bytes, .. } = answer {
                        out.write_all(&bytes)?;
                    }
                }
            }
        }
    }
}
