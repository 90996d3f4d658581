//! What the tests of the proved library share: its C interface, and stations that no sheet gave, in bytes.

#![deny(unsafe_code)]

#[cfg(feature = "library")]
pub mod library;
pub mod trial;
