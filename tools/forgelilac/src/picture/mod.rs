//! Runs and bonds as pictures: SVG, and one page of HTML that needs no network.

pub mod drawing;
pub mod effect;
mod letters;
pub mod model;
mod outline;
pub mod page;
mod shapes;
mod telling;
