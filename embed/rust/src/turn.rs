/// What a turn of a drain did.
#[derive(Clone, Copy, Debug, Default, PartialEq, Eq)]
#[non_exhaustive]
pub struct Turn {
    /// How many packets left their rings and arrived.
    pub taken: usize,
    /// How many packets the polls returned.
    pub sent: usize,
    /// Whether the allocation of an arrival failed, which ended the taking in. That packet is still
    /// in its ring.
    pub memory: bool,
}
