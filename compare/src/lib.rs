//! The proved judge beside its yardsticks, in one process: every byte of the answer and of the lent buffer.

pub mod case;
pub mod load;
pub mod run;
pub mod threads;
pub mod undisturbed;
pub mod yardstick;
