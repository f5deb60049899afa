//! The functions of the static libraries, as the proved crates export them. Nothing checks these
//! declarations but the tests. Each pointer goes with its own slice's length, and no slice is kept: that
//! is all the calls ask.

/// target/staticlib/libexports.a
#[cfg(feature = "exports")]
pub mod exports;
/// target/staticlib/libjudge.a
#[cfg(feature = "judge")]
pub mod judge;
/// target/staticlib/libexports.a, the calls of marking
#[cfg(feature = "exports")]
pub mod marking;
