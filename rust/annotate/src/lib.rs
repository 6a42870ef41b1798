//! The desk's tool over the proved annotator: the parts of the program `annotate`.
#![forbid(unsafe_code)]

pub mod chart;
pub mod describe;
pub mod draw;
pub mod explain;
pub mod failure;
pub mod hex;
pub mod input;
mod output;
mod run;
pub mod scene;
pub mod sheet;
pub mod usage;
pub mod view;

pub use run::run;
