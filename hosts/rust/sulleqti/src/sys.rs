//! The functions of the library (hosts/c/sulleqti.h). All unsafe code of the crate is here.
#![allow(unsafe_code)]

use crate::error::Error;
use std::ffi::{c_int, c_void};
use std::ptr;

/// The protocol of requests and replies that this crate speaks.
const PROTOCOL: u64 = 1;

/// What the library keeps for an engine: `struct sulleqti`.
#[repr(C)]
struct Kept {
    at: *mut c_void,
}

extern "C" {
    fn sulleqti_open(engine: *mut Kept, trusted: bool) -> c_int;
    fn sulleqti_answer(
        engine: *mut Kept,
        request: *const u8,
        length: usize,
        reply_length: *mut usize,
    ) -> c_int;
    fn sulleqti_take(engine: *mut Kept, room: *mut u8, size: usize) -> c_int;
    fn sulleqti_close(engine: *mut Kept);
    fn sulleqti_protocol() -> u64;
}

/// An engine that is open. As it has a pointer, it stays on its thread.
pub(crate) struct Handle(Kept);

/// The outcome of a call by its status.
fn outcome(status: c_int) -> Result<(), Error> {
    match status {
        0 => Ok(()),
        1 => Err(Error::Memory),
        _ => Err(Error::Reply("a known status")),
    }
}

impl Handle {
    /// Opens an engine: with limits for the requests of strangers, or for trusted ones.
    pub fn open(trusted: bool) -> Result<Handle, Error> {
        // SAFETY: it takes nothing.
        if unsafe { sulleqti_protocol() } != PROTOCOL {
            return Err(Error::Reply("this protocol"));
        }
        let mut kept = Kept { at: ptr::null_mut() };
        // SAFETY: `kept` is a room of its own, lent for the call.
        outcome(unsafe { sulleqti_open(&mut kept, trusted) })?;
        Ok(Handle(kept))
    }

    /// The reply to a request, in bytes.
    pub fn answer(&mut self, request: &[u8]) -> Result<Vec<u8>, Error> {
        let mut length = 0;
        // SAFETY: `self.0` is what `sulleqti_open` wrote, and no other call has it. The pointers
        // are those of a slice and of a number, lent for the call, which do not overlap.
        outcome(unsafe {
            sulleqti_answer(&mut self.0, request.as_ptr(), request.len(), &mut length)
        })?;
        let mut reply = vec![0; length];
        // SAFETY: likewise, and `reply` is initialised.
        outcome(unsafe { sulleqti_take(&mut self.0, reply.as_mut_ptr(), reply.len()) })?;
        Ok(reply)
    }
}

impl Drop for Handle {
    fn drop(&mut self) {
        // SAFETY: `self.0` is what `sulleqti_open` wrote. It is closed once, here.
        unsafe { sulleqti_close(&mut self.0) }
    }
}

#[cfg(test)]
mod tests {
    use super::*;

    /// The statuses of hosts/c/sulleqti.h, of which a caller of this crate meets two.
    #[test]
    fn statuses() {
        let other = Err(Error::Reply("a known status"));
        assert_eq!([0, 1, 4].map(outcome), [Ok(()), Err(Error::Memory), other]);
    }
}
