use super::sys;

/// What is said of a line that was answered by this code, and where the line is faulty has this fault. Also the length of the text,
/// which is written where there is room for it.
pub(crate) fn explain(
    line: &[u8],
    number: u64,
    code: u32,
    fault: &sys::Fault,
    text: &mut [u8],
) -> (u32, usize) {
    let (from, len) = (line.as_ptr(), line.len());
    let (at, room, mut needed) = (text.as_mut_ptr(), text.len(), 0);
    // SAFETY: pointers and lengths are those of `line` and `text`, and `fault` is borrowed for the call.
    let code = unsafe { sys::qtree_explain(from, len, number, code, fault, at, room, &mut needed) };
    (code, needed)
}
