//! normalize.rs and wordeq.rs as they stand.
#![allow(dead_code)]

include!(concat!(env!("OUT_DIR"), "/normalize_module.rs"));
include!(concat!(env!("OUT_DIR"), "/wordeq_module.rs"));
