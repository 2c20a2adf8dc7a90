//! Fabrics: the commands by which hosts connect, what their connections become, discovery, and who may connect.

pub mod admission;
pub mod association;
pub mod commands;
pub mod discovery;
