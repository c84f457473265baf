//! A plain model of the lamp twin, for comparison with other programs.

pub mod alone;
pub mod check;
pub mod generate;
pub mod lit;
pub mod model;
pub mod replay;
pub mod sort;
pub mod store;
pub mod text;
pub mod timing;
pub mod totals;
pub mod wait;
