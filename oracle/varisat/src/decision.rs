//! Stand-in: decisions are no part of the store.
use partial_ref::partial;

use varisat_formula::Var;

use crate::context::Context;

pub mod vsids;

pub fn make_available(_ctx: partial!(Context, mut VsidsP), _var: Var) {}

pub fn initialize_var(_ctx: partial!(Context, mut VsidsP), _var: Var, _available: bool) {}

pub fn remove_var(_ctx: partial!(Context, mut VsidsP), _var: Var) {}
