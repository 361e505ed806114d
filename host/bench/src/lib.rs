//! How calls and steps are timed, for the benchmarks and for the comparison of releases.

pub mod timing;
