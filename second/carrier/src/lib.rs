//! Runs houses as processes, carries the packets between them, and plays a script of calls on them.
pub mod network;
pub mod options;
pub mod player;
pub mod printed;
pub mod process;
pub mod script;
pub mod words;
