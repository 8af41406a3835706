//! The sale store: whole histories, and stores damaged in every way.

pub mod damage;
pub mod history;
pub mod look_up;
mod shapes;
pub mod sound;
pub mod ways;
