//! The calls of `proved`, of the library that BEFORE named when this was built.

include!(concat!(env!("OUT_DIR"), "/before.rs"));
