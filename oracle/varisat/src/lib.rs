//! The given files of varisat 0.2.2 (listed in ../../given.sha256), with stand-ins for the modules
//! that were not given, each holding just what the given files call.
pub mod analyze_conflict;
pub mod assumptions;
pub mod binary;
pub mod clause;
pub mod config;
pub mod context;
pub mod decision;
pub mod glue;
pub mod model;
pub mod proof;
pub mod prop;
pub mod schedule;
pub mod solver;
pub mod state;
pub mod tmp;
pub mod unit_simplify;
pub mod variables;
