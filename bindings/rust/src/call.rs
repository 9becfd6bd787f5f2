//! How a call is made.

use crate::sys::{self, VxAnswer};
use crate::Error;
use std::os::raw::c_char;

/// The room of a first buffer, beside that for the texts that a call is given: most pages are no longer
/// than these, so that the call isn't made twice.
pub(crate) const ROOM: usize = 1024;

/// The page that the call of that name answers of the texts.
macro_rules! page {
    ($call:ident $(, $text:ident)*) => {{
        let room = $crate::call::ROOM $(+ $text.len())*;
        $crate::call::answered(room, |buffer, length, answer| {
            // SAFETY: the texts are lent to the call, and `answered` lends what the call writes.
            unsafe { $crate::sys::$call($($text.as_ptr().cast(), $text.len(),)* buffer, length, answer) }
        })
    }};
}
pub(crate) use page;

/// Calls with a buffer of that length, which is lent to the call together with an answer, and once more with
/// a longer one where that is too small.
pub(crate) fn answered(
    room: usize,
    call: impl FnMut(*mut c_char, usize, *mut VxAnswer) -> u32,
) -> Result<String, Error> {
    Ok(text_of(answered_bytes(room, call)?))
}

/// The same of a page that is no text.
pub(crate) fn answered_bytes(
    room: usize,
    mut call: impl FnMut(*mut c_char, usize, *mut VxAnswer) -> u32,
) -> Result<Vec<u8>, Error> {
    let mut buffer = vec![0u8; room];
    loop {
        let mut answer = VxAnswer::default();
        let status = call(buffer.as_mut_ptr().cast(), buffer.len(), &mut answer);
        if status == sys::TOO_SMALL {
            buffer.resize(answer.needed, 0);
            continue;
        }
        buffer.truncate(answer.needed);
        buffer.shrink_to_fit();
        return match status {
            sys::ANSWERED => Ok(buffer),
            status => Err(Error::of(status, text_of(buffer), &answer.place)),
        };
    }
}

fn text_of(bytes: Vec<u8>) -> String {
    String::from_utf8(bytes)
        .unwrap_or_else(|error| String::from_utf8_lossy(error.as_bytes()).into_owned())
}
