//! Links the proved library, libcellprism.a.
#![forbid(unsafe_code)]

mod staticlib;

fn main() {
    staticlib::link("cellprism");
}
