//! Checks recorded runs of TCP hosts against RFC 9293, 5681 and 6298.
//!
//! ```
//! let case = b"trace 1\nskew 0\nmsl 120000000\ngrain 1000\nminrto 1000000\nextra 0\nwitness 1\n";
//! let verdict = tcpwit::check(case)?;
//! assert!(verdict.is_yes());
//! assert_eq!(verdict.to_string(), "yes 0 0");
//! # Ok::<(), tcpwit::CaseError>(())
//! ```
//!
//! - `check`, `check_two`: the verdict on a case, by the proved code of `tcpwit check`
//! - `judge`, `find`, `explain`, `remark`: what the commands of `tcpwit_lab` do (feature `std`)
//! - `trace`: writes traces (feature `std`)
//!
//! The functions share nothing, so any number of threads may call them.
#![cfg_attr(not(feature = "std"), no_std)]

mod ffi;
#[cfg(feature = "std")]
mod lab;
mod level;
mod rule;
#[cfg(feature = "std")]
pub mod trace;
mod verdict;

#[cfg(feature = "std")]
pub use lab::{explain, find, judge, remark, Judgement, LabError, Said, Slack, USUAL_BUDGET};
pub use level::Level;
pub use rule::Rule;
pub use verdict::{check, check_two, CaseError, Fault, TextFault, Verdict};
