//! Copies as docs/COPIES.md has them, written a second time and apart from the proved code, and explored.
pub mod all;
pub mod bounds;
pub mod copy;
pub mod history;
pub mod house;
pub mod messages;
pub mod mistakes;
pub mod numbered;
pub mod rules;
pub mod service;
pub mod walks;
pub mod world;
