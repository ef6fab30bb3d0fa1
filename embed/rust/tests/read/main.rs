//! What lines of tc say to a device, in each of their spellings.
mod addresses;
mod fields;
mod orders;
mod ranges;
mod recorded;
mod units;
