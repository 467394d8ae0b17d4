//! A second implementation of the plan rules, a generator of plan texts, and
//! the comparison of both with the library.

pub mod answer;
pub mod askew;
pub mod branches;
pub mod climb;
pub mod compare;
pub mod crossings;
pub mod families;
pub mod full;
pub mod gateway;
pub mod generate;
pub mod guard;
pub mod idle;
pub mod indent;
pub mod lengths;
#[cfg(feature = "library")]
pub mod library;
pub mod locks;
pub mod miscross;
pub mod misread;
pub mod opposed;
pub mod pairs;
pub mod promela;
pub mod random;
pub mod recode;
pub mod reference;
pub mod report;
pub mod shares;
pub mod shelf;
pub mod slip;
pub mod standin;
pub mod straight;
pub mod tidy;
pub mod times;
pub mod twins;
pub mod verdict;
