//! An encoder's end of the line by libuecp, as a value that gives its memory back when it is dropped.

use std::error::Error;
use std::fmt;

mod ffi {
    use std::ffi::c_void;

    /// `uecp_handle` of uecp.h.
    #[repr(C)]
    pub struct Handle {
        pub at: *mut c_void,
        pub there: bool,
    }

    /// `uecp_answer` of uecp.h.
    #[repr(C)]
    #[derive(Default)]
    pub struct Answer {
        pub kind: u8,
        pub is_fresh: bool,
        pub fault: u8,
        pub length: u8,
        pub reply: [u8; 16],
        pub place: usize,
    }

    extern "C" {
        pub fn uecp_free(handle: *mut Handle);
        pub fn uecp_encoder_new(
            handle: *mut Handle,
            site: u16,
            encoder: u8,
            sets: u8,
            services: *const u8,
            count: usize,
        ) -> u8;
        pub fn uecp_encoder_feed(
            handle: *mut Handle,
            piece: *const u8,
            length: usize,
            used: *mut usize,
            answer: *mut Answer,
        ) -> u8;
    }
}

/// Why there is no encoder, by the status that uecp.h names.
#[derive(Clone, Copy, Debug, PartialEq, Eq)]
pub struct Refused(pub u8);

impl fmt::Display for Refused {
    fn fmt(&self, out: &mut fmt::Formatter<'_>) -> fmt::Result {
        out.write_str(match self.0 {
            4 => "no memory",
            5 => "no encoder's own address",
            6 => "not 1 to 8 data sets",
            7 => "not 1 to 8 services",
            8 => "a service 00",
            9 => "a service that is listed twice",
            _ => "no encoder",
        })
    }
}

impl Error for Refused {}

/// What a frame, or what is none, brought an encoder.
#[derive(Debug, PartialEq, Eq)]
pub enum Answer {
    /// To be sent back; fresh where the message was applied now.
    Reply { bytes: Vec<u8>, is_fresh: bool },
    NotForMe,
    Unnumbered,
    NotNext,
    Dropped { fault: u8, place: usize },
}

/// An encoder, which may go to another thread.
pub struct Encoder {
    handle: ffi::Handle,
}

// SAFETY: what lies behind a handle belongs to no thread, and a call has `&mut self`, so one has the handle at a time
unsafe impl Send for Encoder {}

impl Encoder {
    pub fn new(site: u16, encoder: u8, sets: u8, services: &[u8]) -> Result<Encoder, Refused> {
        let mut handle = ffi::Handle { at: std::ptr::null_mut(), there: false };
        // SAFETY: the handle is empty, and the services are as many as is said
        let status =
            unsafe { ffi::uecp_encoder_new(&mut handle, site, encoder, sets, services.as_ptr(), services.len()) };
        // a handle may lie anywhere between two calls, so it may be moved
        if status == 0 { Ok(Encoder { handle }) } else { Err(Refused(status)) }
    }

    /// What a piece brings, as far as the iterator is taken: the rest of the piece is not fed.
    pub fn feed<'a>(&'a mut self, piece: &'a [u8]) -> impl Iterator<Item = Answer> + 'a {
        let mut rest = piece;
        std::iter::from_fn(move || {
            while !rest.is_empty() {
                let (mut told, mut used) = (ffi::Answer::default(), 0);
                // SAFETY: the handle has an encoder, which no other call has now; what is written is initialized
                unsafe { ffi::uecp_encoder_feed(&mut self.handle, rest.as_ptr(), rest.len(), &mut used, &mut told) };
                rest = &rest[used..];
                if let Some(answer) = answer_of(&told) {
                    return Some(answer);
                }
            }
            None
        })
    }
}

impl Drop for Encoder {
    fn drop(&mut self) {
        // SAFETY: no other call has the handle now
        unsafe { ffi::uecp_free(&mut self.handle) }
    }
}

fn answer_of(told: &ffi::Answer) -> Option<Answer> {
    match told.kind {
        1 => Some(Answer::Reply {
            bytes: told.reply[..usize::from(told.length)].to_vec(),
            is_fresh: told.is_fresh,
        }),
        2 => Some(Answer::NotForMe),
        3 => Some(Answer::Unnumbered),
        4 => Some(Answer::NotNext),
        5 => Some(Answer::Dropped { fault: told.fault, place: told.place }),
        _ => None,
    }
}
