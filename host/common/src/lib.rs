//! What the tests and the benchmark share: the library's calls, and bits packed as a strip has them.

pub mod bits;
pub mod calls;
