use crate::raw;

/// Writes the mark Congestion Experienced (RFC 3168) into a packet that begins with its IP header,
/// and updates the checksum of an IPv4 header. Returns whether the packet is marked now.
///
/// A program calls it for each packet that a poll returns with the codepoint 3: otherwise the
/// packet's sender never learns of the congestion. The packet is marked if
/// [`Packet::read`](crate::Packet::read) reads from it an ECN codepoint that is not
/// 0. Otherwise no byte is written.
///
/// ```
/// let mut udp = [
///     0x45, 2, 0, 28, 0, 0, 0, 0, 64, 17, 0x66, 0xcd, 10, 0, 0, 1, 10, 0, 0, 2, 0x10, 0, 0x13, 0x89, 0, 8, 0, 0,
/// ];
/// assert!(qtree::mark_head(&mut udp));
/// assert_eq!((udp[1], [udp[10], udp[11]]), (3, [0x66, 0xcc]));
/// ```
pub fn mark_head(packet: &mut [u8]) -> bool {
    raw::mark_head(packet)
}

/// Returns the index of the byte at which the IP header of an Ethernet frame begins: 14, or 18 or
/// 22 behind one or two VLAN tags (IEEE 802.1Q, 802.1ad). Returns `None` if the frame has another
/// type, such as ARP, or more tags, or if it ends before its type does.
///
/// ```
/// let mut frame = [0; 60];
/// frame[12..18].copy_from_slice(&[0x81, 0, 0, 5, 8, 0]);
/// assert_eq!(qtree::ip_at(&frame), Some(18));
/// assert_eq!(qtree::ip_at(&frame[..17]), None);
/// ```
#[must_use]
pub fn ip_at(frame: &[u8]) -> Option<usize> {
    match raw::ip_at(frame) {
        0 => None,
        at => Some(at),
    }
}
