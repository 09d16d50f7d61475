//! Worked examples of what is read, judged and written: messages and captures, bounds of what clients cached, the texts of schedules
//! and records, machines that speak lines, explanations and pictures. Each but one runs again with each allocation refused.

use smblease_std::refusing::Refusing;

mod lines;
mod pictures;
mod placing;
mod wire;

#[global_allocator]
static REFUSING: Refusing = Refusing;
