//! The yardstick of the Aura page-script type judge: the Rust's own methods, cut out of its sources at
//! build time, behind document 01's bytes. Refusals, buffers and cases are those of `reading`.

pub mod answer;
pub mod args;
pub mod coverage;
pub mod diagnostic;
pub mod domain;
pub mod question;
pub mod rust;
pub mod sample;
mod stubs;
pub mod table;
pub mod types;

pub use answer::{answer, in_domain, printed, printed_by, program, Source};

// The cut text names these modules by their full paths.
mod sema {
    pub mod std_sigs {
        pub use crate::stubs::{llvm_type_to_ty, std_signature_table};
    }
}
mod std {
    pub mod decl {
        pub use crate::stubs::{is_builtin, is_prelude};
    }
}
