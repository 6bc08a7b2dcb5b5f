//! eq_engine.rs as it stands, and the types that it names.
#![allow(dead_code)]

pub mod types;

include!(concat!(env!("OUT_DIR"), "/eq_engine_module.rs"));

pub use eq_engine::EqualityEngine;
