//! The turnout works desk, written a second time, from the documents that docs/RULES.md restates.
//! Used to test the proved library: by stored cases (`vectors`) and side by side (`differential`); the workbench stands
//! on it.

#![forbid(unsafe_code)]

pub mod builders;
pub mod clearance;
pub mod desk;
pub mod drafts;
pub mod group;
pub mod history;
pub mod journal;
pub mod keys;
pub mod message;
pub mod minutes;
pub mod movement;
pub mod panel;
pub mod refusal;
pub mod replay;
pub mod separation;
pub mod set;
pub mod sheet;
pub mod signals;
pub mod station;
pub mod unit;
pub mod work;
pub mod writer;
pub mod zone;
