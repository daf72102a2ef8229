//! What the programs that run the source's text beside the proved library have in common. The oracle's modules are copied in beside it.
pub mod calls;
pub mod factor_cases;
pub mod factors;
pub mod nights;
pub mod plan_cases;
pub mod plans;
pub mod run;
pub mod systems;
pub mod values;
