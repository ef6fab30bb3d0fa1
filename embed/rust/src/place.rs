use core::fmt;

/// A place of a tree.
#[derive(Clone, Copy, PartialEq, Eq)]
pub enum Place {
    /// The device itself.
    Top,
    /// The qdisc at its root.
    Root,
    /// The qdisc in the class `major:minor`, from 1:1 to fffe:ffff. In lines of tc both numbers are
    /// hexadecimal: the class 1:10 is `Class(1, 0x10)`.
    Class(u16, u16),
}

/// The place as tc writes it: `root`, or the class, such as `1:1f`. The device itself is `top`.
///
/// ```
/// # use qtree::Place;
/// assert_eq!(Place::Class(1, 0x1f).to_string(), "1:1f");
/// assert_eq!(format!("{:?}", Place::Class(1, 0x1f)), "Class(1:1f)");
/// ```
impl fmt::Display for Place {
    fn fmt(&self, f: &mut fmt::Formatter<'_>) -> fmt::Result {
        match self {
            Place::Top => f.pad("top"),
            Place::Root => f.pad("root"),
            Place::Class(major, minor) => write!(f, "{major:x}:{minor:x}"),
        }
    }
}

impl fmt::Debug for Place {
    fn fmt(&self, f: &mut fmt::Formatter<'_>) -> fmt::Result {
        match self {
            Place::Top => f.write_str("Top"),
            Place::Root => f.write_str("Root"),
            Place::Class(..) => write!(f, "Class({self})"),
        }
    }
}

impl Place {
    pub(crate) fn to_c(self) -> (u32, u16, u16) {
        match self {
            Place::Top => (0, 0, 0),
            Place::Root => (1, 0, 0),
            Place::Class(major, minor) => (2, major, minor),
        }
    }
}
