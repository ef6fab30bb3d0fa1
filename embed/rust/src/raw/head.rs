use super::sys;

/// Fills in what the first bytes of a packet say of it, from its IP header on.
pub(crate) fn read_head(bytes: &[u8], seed: u32, packet: &mut sys::Packet) {
    // SAFETY: pointer and length are those of `bytes`, and `packet` is another place.
    unsafe { sys::qtree_read_head(bytes.as_ptr(), bytes.len(), seed, packet) }
}

/// The same with a hash that the caller has.
pub(crate) fn read_hashed(bytes: &[u8], hash: u32, packet: &mut sys::Packet) {
    // SAFETY: pointer and length are those of `bytes`, and `packet` is another place.
    unsafe { sys::qtree_read_fields_hashed(bytes.as_ptr(), bytes.len(), hash, packet) }
}

/// Writes Congestion Experienced, and says whether the packet is marked now.
pub(crate) fn mark_head(bytes: &mut [u8]) -> bool {
    // SAFETY: pointer and length are those of `bytes`.
    unsafe { sys::qtree_mark_head(bytes.as_mut_ptr(), bytes.len()) }
}

/// The byte at which the IP header of an Ethernet frame begins; 0 where none does.
pub(crate) fn ip_at(frame: &[u8]) -> usize {
    // SAFETY: pointer and length are those of `frame`.
    unsafe { sys::qtree_ip_at(frame.as_ptr(), frame.len()) }
}

/// Fills in the hash of its addresses, ports and protocol.
pub(crate) fn hash(seed: u32, packet: &mut sys::Packet) {
    // SAFETY: `packet` is borrowed for the call.
    unsafe { sys::qtree_hash(seed, packet) };
}
