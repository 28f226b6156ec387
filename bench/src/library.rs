//! The C interface of the library, with safe wrappers.
//!
//! Everything that depends on the names or the shape of that interface is in this file.

/// The declarations, as the library exports them.
mod export {
    extern "C" {
        pub fn binr_list(
            mode: u8,
            bytes: *const u8,
            len: usize,
            out: *mut u8,
            out_len: usize,
        ) -> i64;
        pub fn binr_write(
            mode: u8,
            id: u8,
            body: *const u8,
            body_len: usize,
            out: *mut u8,
            out_len: usize,
        ) -> i64;
        pub fn binr_judge(id: u8, body: *const u8, len: usize) -> u8;
        pub fn binr_count(mode: u8, bytes: *const u8, len: usize) -> u64;
    }
}

/// What a call that fills a buffer answers: refusal 0 where it succeeded, and the length, which
/// is 0 where it was refused.
#[derive(Clone, Copy, Debug, PartialEq, Eq)]
pub struct Filled {
    pub refusal: u32,
    pub length: usize,
}

impl Filled {
    /// The library returns the length, or the refusal's number with a minus.
    fn unpack(answer: i64) -> Filled {
        match usize::try_from(answer) {
            Ok(length) => Filled { refusal: 0, length },
            Err(_) => Filled {
                refusal: u32::try_from(-answer).expect("a refusal's number is small"),
                length: 0,
            },
        }
    }
}

/// The events of the bytes, read from a fresh reader, as the listing programs print them.
pub fn list(mode: u8, bytes: &[u8], out: &mut [u8]) -> Filled {
    // SAFETY: both regions are valid for their lengths during the call, and apart.
    Filled::unpack(unsafe {
        export::binr_list(
            mode,
            bytes.as_ptr(),
            bytes.len(),
            out.as_mut_ptr(),
            out.len(),
        )
    })
}

/// The frame of a message.
pub fn write(mode: u8, id: u8, body: &[u8], out: &mut [u8]) -> Filled {
    // SAFETY: both regions are valid for their lengths during the call, and apart.
    Filled::unpack(unsafe {
        export::binr_write(
            mode,
            id,
            body.as_ptr(),
            body.len(),
            out.as_mut_ptr(),
            out.len(),
        )
    })
}

/// 0 if the message is acceptable, else 10, 11 or 12.
pub fn judge(id: u8, body: &[u8]) -> u8 {
    // SAFETY: the region is valid for its length during the call.
    unsafe { export::binr_judge(id, body.as_ptr(), body.len()) }
}

/// The number of events of the bytes, read through the slice call from a fresh reader.
pub fn count(mode: u8, bytes: &[u8]) -> u64 {
    // SAFETY: the region is valid for its length during the call.
    unsafe { export::binr_count(mode, bytes.as_ptr(), bytes.len()) }
}
