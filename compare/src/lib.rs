//! The proved library beside the second implementation: inputs for all eleven calls that are known by a number, and what
//! each side makes of them. The program `compare` runs many; other harnesses may take the inputs from here.

pub mod call;
pub mod cases;
pub mod keys;
pub mod lengths;
pub mod opening;
pub mod sealing;
pub mod setting_up;
pub mod small;

pub use call::{Call, Side, Verb, LIBRARY, PEER};
pub use cases::Cases;
