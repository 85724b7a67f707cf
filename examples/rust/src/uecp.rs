//! Frames by libuecp, as an iterator over any reader.

use std::io::{self, Read};

mod ffi {
    /// `uecp_finding` of uecp.h.
    #[repr(C)]
    pub struct Finding {
        pub kind: u8,
        pub fault: u8,
        pub counter: u8,
        pub length: u8,
        pub site: u16,
        pub encoder: u8,
        pub message: [u8; 255],
        pub place: usize,
    }

    extern "C" {
        pub fn uecp_find(bytes: *const u8, length: usize, finding: *mut Finding) -> usize;
        pub fn uecp_encode(
            site: u16,
            encoder: u8,
            counter: u8,
            message: *const u8,
            length: usize,
            out: *mut u8,
            room: usize,
        ) -> usize;
        pub fn uecp_words(is_north_america: bool, message: *const u8, length: usize, out: *mut u8, room: usize)
            -> usize;
    }
}

/// The most bytes of a frame as it is sent.
const FRAME_MAX: usize = 524;

#[derive(Debug, PartialEq, Eq)]
pub struct Frame {
    pub site: u16,
    pub encoder: u8,
    pub counter: u8,
    pub message: Vec<u8>,
}

#[derive(Debug, PartialEq, Eq)]
pub enum Found {
    Frame(Frame),
    /// A segment that is none: the number of its fault, and the place of a bad stuffing.
    Dropped { fault: u8, place: usize },
}

impl Frame {
    /// The frame as it is sent; None where site, encoder or message are out of range.
    pub fn encode(&self) -> Option<Vec<u8>> {
        let mut out = vec![0; FRAME_MAX];
        // SAFETY: both slices are as long as is said, and a slice's pointer is never null
        let length = unsafe {
            ffi::uecp_encode(
                self.site,
                self.encoder,
                self.counter,
                self.message.as_ptr(),
                self.message.len(),
                out.as_mut_ptr(),
                out.len(),
            )
        };
        out.truncate(length);
        (length > 0).then_some(out)
    }

    /// The message as a line of phrases; None where memory was refused.
    pub fn words(&self) -> Option<String> {
        let mut out = Vec::new();
        loop {
            // SAFETY: as above
            let length = unsafe {
                ffi::uecp_words(false, self.message.as_ptr(), self.message.len(), out.as_mut_ptr(), out.len())
            };
            if length == usize::MAX {
                return None;
            }
            if length <= out.len() {
                out.truncate(length);
                return String::from_utf8(out).ok();
            }
            out.resize(length, 0);
        }
    }
}

/// What is found in a stream, as it is read.
pub struct Findings<R> {
    reader: R,
    held: Vec<u8>,
}

impl<R: Read> Findings<R> {
    pub fn new(reader: R) -> Self {
        Findings { reader, held: Vec::new() }
    }

    /// The first finding of what is held.
    fn first(&mut self) -> Option<Found> {
        let mut told = ffi::Finding {
            kind: 0,
            fault: 0,
            counter: 0,
            length: 0,
            site: 0,
            encoder: 0,
            message: [0; 255],
            place: 0,
        };
        // SAFETY: the bytes are as long as is said, and the finding is initialized
        let done = unsafe { ffi::uecp_find(self.held.as_ptr(), self.held.len(), &mut told) };
        self.held.drain(..done);
        match told.kind {
            0 => None,
            1 => Some(Found::Frame(Frame {
                site: told.site,
                encoder: told.encoder,
                counter: told.counter,
                message: told.message[..usize::from(told.length)].to_vec(),
            })),
            _ => Some(Found::Dropped { fault: told.fault, place: told.place }),
        }
    }
}

impl<R: Read> Iterator for Findings<R> {
    type Item = io::Result<Found>;

    fn next(&mut self) -> Option<io::Result<Found>> {
        let mut piece = [0; 4096];
        loop {
            if let Some(found) = self.first() {
                return Some(Ok(found));
            }
            // the first bytes of a segment longer than any frame tell what it is
            self.held.truncate(FRAME_MAX);
            match self.reader.read(&mut piece) {
                Ok(0) => return None,
                Ok(count) => self.held.extend_from_slice(&piece[..count]),
                Err(error) => return Some(Err(error)),
            }
        }
    }
}
