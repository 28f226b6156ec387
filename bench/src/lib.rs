//! An independent reference of the BINR line of an NV08C receiver, and the C interface of
//! the library that it is compared with and timed against.
//!
//! ```text
//! cargo test                                              the reference alone
//! cargo run --release --features library --bin differential [bytes] [seed]
//! cargo run --release --features library --bin benchmark [bytes] [repetitions]
//! ```
//!
//! The two programs link libexport.a from the folder that BINR_LIB_DIR names, by default
//! ../target/staticlib relative to this package.

pub mod generator;
#[cfg(feature = "library")]
pub mod library;
pub mod reference;
