//! The transport: from the bytes of a connection to commands with their data, and back.

pub mod connection;
pub mod input;
pub mod listening;
pub mod output;
pub mod pdu;
pub mod transfers;
