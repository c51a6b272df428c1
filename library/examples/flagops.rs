// What a program in Rust can take of flagops.h: a seat that closes itself, and answers as values.
#![allow(dead_code)] // a program may ask for one kind alone
use std::ffi::c_void;
use std::fmt;

#[repr(C)]
struct RawSeat {
    address: *mut c_void,
    held: bool,
}

#[repr(C)]
#[derive(Default)]
struct Details {
    reason: u32,
    code: u32,
    value: usize,
    has_variant: bool,
}

#[link(name = "flagops", kind = "static")]
extern "C" {
    fn flagops_new(seat: *mut RawSeat) -> u32;
    fn flagops_close(seat: *mut RawSeat);
    fn flagops_open(seat: *mut RawSeat, document: *const u8, document_len: usize) -> u32;
    fn flagops_resolve(
        seat: *mut RawSeat, key: *const u8, key_len: usize, kind: u32, fallback: *const u8, fallback_len: usize,
        context: *const u8, context_len: usize, moment: u64, out: *mut u8, room: usize, written: *mut usize, details: *mut Details,
    ) -> u32;
}

const ROOM: u32 = 3;

/// The kinds of values.
pub const BOOL: u32 = 0;
pub const STRING: u32 = 1;
pub const INTEGER: u32 = 2;
pub const OBJECT: u32 = 3;

/// A call was refused: the number is that of `flagops.h`.
#[derive(Debug)]
pub struct Refused(pub u32);

impl fmt::Display for Refused {
    fn fmt(&self, f: &mut fmt::Formatter<'_>) -> fmt::Result {
        write!(f, "flagops: refused with {}", self.0)
    }
}

impl std::error::Error for Refused {}

fn must(number: u32) -> Result<(), Refused> {
    if number == 0 { Ok(()) } else { Err(Refused(number)) }
}

/// A seat: `&mut self` sees to it that one call at a time has it.
pub struct Seat(RawSeat);

// The next call may come from another thread.
unsafe impl Send for Seat {}

/// The value as JSON, and the name of its variant.
pub struct Answer {
    pub value: String,
    pub variant: Option<String>,
}

impl Seat {
    pub fn new() -> Result<Seat, Refused> {
        let mut raw = RawSeat { address: std::ptr::null_mut(), held: false };
        must(unsafe { flagops_new(&mut raw) })?;
        Ok(Seat(raw))
    }

    pub fn open(&mut self, document: &[u8]) -> Result<(), Refused> {
        must(unsafe { flagops_open(&mut self.0, document.as_ptr(), document.len()) })
    }

    pub fn resolve(&mut self, key: &str, kind: u32, fallback: &str, context: &str, moment: u64) -> Result<Answer, Refused> {
        let (mut out, mut written, mut details) = (vec![0u8; 256], 0, Details::default());
        loop {
            let number = unsafe {
                flagops_resolve(
                    &mut self.0, key.as_ptr(), key.len(), kind, fallback.as_ptr(), fallback.len(), context.as_ptr(), context.len(), moment,
                    out.as_mut_ptr(), out.len(), &mut written, &mut details,
                )
            };
            if number != ROOM {
                must(number)?;
                break;
            }
            out.resize(written, 0);
        }
        let text = |bytes: &[u8]| String::from_utf8_lossy(bytes).into_owned();
        let variant = details.has_variant.then(|| text(&out[details.value..written]));
        Ok(Answer { value: text(&out[..details.value]), variant })
    }
}

impl Drop for Seat {
    fn drop(&mut self) {
        unsafe { flagops_close(&mut self.0) }
    }
}
