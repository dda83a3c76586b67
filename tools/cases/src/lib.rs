//! Random and stored cases for the dose check and files 730 and 070, what they cover, and the comparison of another
//! program with the second program on them.

pub mod generate;
pub mod random;
pub mod run;
