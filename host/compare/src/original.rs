//! What the original says, and whether it can be asked on this processor.

use std::panic::catch_unwind;

pub use magnetar_cpu::circuit::{
    assemble_instance_z, build_circuit, build_circuit_batched, witness_row, CircuitSpec,
    InstanceGeometry, WITNESS_LAYOUT,
};
pub use magnetar_cpu::expand::{RomRow, VirtualKind};
pub use magnetar_cpu::interp::{CycleRecord, Trace};
pub use magnetar_cpu::{execute, expand_program, pad_records, StreamCursor};
pub use magnetar_field::Gf128;
pub use magnetar_spartan::SparseMatrix;

use crate::house::Relation;

/// The original's product falls back to `clmul64_portable` without these two, and that one loses
/// the high half.
#[cfg(target_arch = "x86_64")]
pub fn processor_lacks() -> Option<&'static str> {
    if !std::is_x86_feature_detected!("pclmulqdq") {
        return Some(
            "the processor lacks PCLMULQDQ, without which the original's product is wrong",
        );
    }
    if !std::is_x86_feature_detected!("sse4.1") {
        return Some("the processor lacks SSE4.1, without which the original's product is wrong");
    }
    None
}

#[cfg(not(target_arch = "x86_64"))]
pub fn processor_lacks() -> Option<&'static str> {
    Some("the original's product is right on x86-64 only")
}

pub fn add(a: u128, b: u128) -> u128 {
    (Gf128(a) + Gf128(b)).0
}

/// The sum as `apply` forms it, by `+=`.
pub fn add_assign(a: u128, b: u128) -> u128 {
    let mut sum = Gf128(a);
    sum += Gf128(b);
    sum.0
}

pub fn mul(a: u128, b: u128) -> u128 {
    magnetar_field::mul(Gf128(a), Gf128(b)).0
}

pub fn geometry(cpi: usize) -> InstanceGeometry {
    WITNESS_LAYOUT::geometry(cpi)
}

/// Whether `geometry` takes the size: it panics on one that it does not take.
pub fn takes_size(cpi: usize) -> bool {
    let hook = std::panic::take_hook();
    std::panic::set_hook(Box::new(|_| {}));
    let taken = catch_unwind(|| geometry(cpi)).is_ok();
    std::panic::set_hook(hook);
    taken
}

/// What `check_row` says: the relation that does not hold, if there is one.
pub fn check_row(spec: &CircuitSpec, z: &[Gf128]) -> Option<Relation> {
    match magnetar_cpu::circuit::check_row(spec, z) {
        Ok(()) => None,
        Err("bin") => Some(Relation::Bin),
        Err("fld") => Some(Relation::Fld),
        Err(other) => panic!("the original names a relation {other}"),
    }
}
