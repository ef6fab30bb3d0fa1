//! What a device recorded, and its script, by which another one does the same.
#[path = "../common/chance.rs"]
mod chance;
mod commands;
mod events;
mod grounds;
mod kinds;
mod lines;
mod script;
mod sessions;
mod spelled;
