//! Pictures as SVG 1.1, for screen and print: a station's plan, a journal over time. Colours never stand alone: each
//! mark has a shape of its own.

mod bars;
mod columns;
mod group_bars;
mod ink;
mod journal;
mod legend;
mod notes;
mod placed;
mod rows;
mod sheet;
mod sheet_zone;
mod svg;
mod symbols;
mod table;
mod text;

pub use journal::draw as journal;
pub use sheet::draw as sheet;

/// Of every picture.
const MARGIN: i32 = 16;
/// The least width of a picture.
const LEAST_WIDTH: i32 = 900;
