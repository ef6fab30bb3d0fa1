//! Devices that files of tc lines set up, also while packets wait in them.
#[path = "../common/chance.rs"]
mod chance;
mod comparing;
mod errors;
mod files;
mod home_uplink;
mod random_files;
mod two_customers;
