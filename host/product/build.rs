//! Links the proved library's functions for the comparison, libcompare.a.
#![forbid(unsafe_code)]

#[path = "../cellprism/staticlib.rs"]
mod staticlib;

fn main() {
    staticlib::link("compare");
}
