//! The originals, copied by build.rs and compiled as they are. See ../README.md.
#![allow(warnings)]
include!(concat!(env!("OUT_DIR"), "/data_model/root.rs"));
