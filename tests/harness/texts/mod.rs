//! The texts that are compared, group by group.

pub mod control_bytes;
pub mod distinguish;
pub mod exhaustive;
pub mod linear_forms;
pub mod long;
pub mod long_numbers;
pub mod long_tokens;
pub mod numbers;
pub mod sheets;
pub mod short;
pub mod step_states;
pub mod steps;
pub mod tokens;
pub mod two_numbers;
pub mod utf8;
