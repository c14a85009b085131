//! Stand-in: proof files are left out.
use std::io::{self, Write};

use varisat_internal_proof::ProofStep;

pub fn write_step<'s>(_target: &mut impl Write, _step: &'s ProofStep<'s>) -> io::Result<()> {
    unimplemented!("proof files are left out")
}

pub fn write_binary_step<'s>(_target: &mut impl Write, _step: &'s ProofStep<'s>) -> io::Result<()> {
    unimplemented!("proof files are left out")
}
