use crate::error::Error;
use crate::raw::sys;
use alloc::string::{FromUtf8Error, String};
use alloc::vec::Vec;

/// A text, of which a call answers the length and writes it where there is room. `Memory` where its allocation fails.
pub(crate) fn text_of(mut call: impl FnMut(&mut [u8]) -> (u32, usize)) -> Result<String, Error> {
    let mut text = Vec::new();
    let mut room = 1024;
    loop {
        text.try_reserve_exact(room).map_err(|_| Error::Memory)?;
        text.resize(room, 0);
        let (code, needed) = call(&mut text);
        match code {
            sys::QTREE_DONE => {
                text.truncate(needed);
                let lossy = |it: FromUtf8Error| String::from_utf8_lossy(it.as_bytes()).into_owned();
                return Ok(String::from_utf8(text).unwrap_or_else(lossy));
            }
            sys::QTREE_ROOM => {
                text.clear();
                room = needed;
            }
            code => return Err(Error::of(code)),
        }
    }
}
