//! Pictures of a day: as SVG, as a page, and in letters.

mod axis;
pub mod chart;
pub mod colours;
mod page;
mod scene;
pub mod stations;
mod steps;
pub mod svg;
mod terminal;
pub mod timeline;
pub mod trays;

pub use axis::Axis;
pub use page::page;
pub use scene::draw;
pub use terminal::terminal;
pub use timeline::{Timeline, Undrawn};
