// Both ends of a line as a plain program: the same loop over sockets as `uecp server` and `uecp encoder`, with no proof, no store,
// no state and no limits. tests/measure/ends_cost counts beside it. `plain_ends encoder PORT` serves one connection; `plain_ends server PORT
// WINDOW` sends the messages on standard input, in hexadecimal, batch by batch.
use std::env;
use std::io::{self, BufRead, Read, Write};
use std::net::{TcpListener, TcpStream};

fn check(bytes: &[u8]) -> u16 {
    !bytes.iter().fold(0xffff_u16, |register, byte| {
        (0..8).rev().fold(register, |register, bit| {
            let top = (register >> 15) as u8 ^ (byte >> bit & 1);
            register << 1 ^ if top == 1 { 0x1021 } else { 0 }
        })
    })
}

fn put_frame(counter: u8, message: &[u8], out: &mut Vec<u8>) {
    let mut plain = vec![0x00, 0x41, counter, message.len() as u8];
    plain.extend_from_slice(message);
    let code = check(&plain);
    plain.extend_from_slice(&code.to_be_bytes());
    out.push(0xfe);
    for byte in plain {
        if byte >= 0xfd {
            out.extend_from_slice(&[0xfd, byte - 0xfd]);
        } else {
            out.push(byte);
        }
    }
    out.push(0xff);
}

/// The plain bytes of the segment that is open, where one is.
struct Deframer {
    plain: Option<Vec<u8>>,
    escaping: bool,
}

impl Deframer {
    /// Reads bytes, and hands on the counter and the message of each frame.
    fn feed(&mut self, bytes: &[u8], mut found: impl FnMut(u8, &[u8])) {
        for &byte in bytes {
            match (byte, &mut self.plain) {
                (0xfe, _) => {
                    self.plain = Some(Vec::new());
                    self.escaping = false;
                }
                (0xff, Some(plain)) => {
                    let end = plain.len().saturating_sub(2);
                    if end >= 4 && plain[3] as usize == end - 4 && check(&plain[..end]).to_be_bytes() == plain[end..] {
                        found(plain[2], &plain[4..end]);
                    }
                    self.plain = None;
                }
                (0xfd, Some(_)) => self.escaping = true,
                (_, Some(plain)) => {
                    plain.push(if self.escaping { byte.wrapping_add(0xfd) } else { byte });
                    self.escaping = false;
                }
                _ => {}
            }
        }
    }
}

fn serve(port: u16) -> io::Result<()> {
    let listener = TcpListener::bind(("127.0.0.1", port))?;
    let (mut line, _) = listener.accept()?;
    line.set_nodelay(true)?;
    let (mut next, mut applied) = (1_u8, 0_usize);
    let mut deframer = Deframer { plain: None, escaping: false };
    let (mut room, mut replies) = ([0; 4096], Vec::new());
    loop {
        let count = line.read(&mut room)?;
        if count == 0 {
            println!("connection 1 replies {applied}");
            return Ok(());
        }
        replies.clear();
        deframer.feed(&room[..count], |counter, _message| {
            if counter == next {
                applied += 1;
                next = if next == 255 { 1 } else { next + 1 };
            }
            put_frame(0, &[0x18, 0x00, counter], &mut replies);
        });
        line.write_all(&replies)?;
    }
}

fn send(port: u16, window: usize) -> io::Result<()> {
    let mut line = TcpStream::connect(("127.0.0.1", port))?;
    line.set_nodelay(true)?;
    let digit = |byte: u8| (byte as char).to_digit(16).unwrap_or(0) as u8;
    let messages: Vec<Vec<u8>> =
        io::stdin().lock().lines().map_while(Result::ok).map(|text| text.as_bytes().chunks(2).map(|pair| digit(pair[0]) << 4 | digit(pair[1])).collect()).collect();
    let (mut counter, mut room, mut frames, mut said) = (0_u8, [0; 4096], Vec::new(), String::new());
    let mut deframer = Deframer { plain: None, escaping: false };
    for batch in messages.chunks(window) {
        frames.clear();
        for message in batch {
            counter = if counter == 255 { 1 } else { counter + 1 };
            put_frame(counter, message, &mut frames);
        }
        line.write_all(&frames)?;
        let mut heard = 0;
        while heard < batch.len() {
            let count = line.read(&mut room)?;
            if count == 0 {
                return Err(io::ErrorKind::UnexpectedEof.into());
            }
            deframer.feed(&room[..count], |_, message| heard += usize::from(message.len() == 3 && message[0] == 0x18));
        }
        for _ in batch {
            said.push_str("acknowledged 00\n");
        }
        print!("{said}");
        io::stdout().flush()?;
        said.clear();
    }
    Ok(())
}

fn main() -> io::Result<()> {
    let words: Vec<String> = env::args().collect();
    let number = |at: usize| words.get(at).and_then(|word| word.parse().ok()).unwrap_or(0);
    match words.get(1).map(String::as_str) {
        Some("encoder") => serve(number(2) as u16),
        Some("server") => send(number(2) as u16, number(3)),
        _ => Err(io::ErrorKind::InvalidInput.into()),
    }
}
