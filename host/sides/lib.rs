//! What the two sides say of a line: the port, and the original where it is built in.

pub mod answers;
#[cfg(original)]
pub mod original;
pub mod port;
#[cfg(original)]
pub mod rules;
