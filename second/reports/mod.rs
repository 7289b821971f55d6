//! The reports.

pub mod chip_report;
pub mod counter_report;
pub mod demand3;
pub mod demand3_report;
pub mod digest;
pub mod failure;
pub mod reflection;
pub mod reflection_report;
pub mod repeat_line;
pub mod texts;
pub mod totals;
