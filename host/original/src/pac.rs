//! The driver's view of the registers.
pub mod twai0;
