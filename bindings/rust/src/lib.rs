//! What a DSDT and SSDTs load to, without running any of their code: safe Rust over `libacpins.a`,
//! whose logic is proved.
//!
//! ```
//! use acpins::{Kind, Machine};
//!
//! # fn main() -> Result<(), acpins::Fault> {
//! // Scope (\_SB_) { Device (PCI0) { Name (_ADR, Zero) } }
//! let dsdt = b"DSDT\x38\0\0\0\x02\x53                          \
//!     \x10\x13\\_SB_\x5B\x82\x0BPCI0\x08_ADR\0";
//! // SSDTs follow, in the order of their load.
//! let machine = Machine::load(&[dsdt], 64)?;
//! for object in &machine {
//!     println!("{} is a {}", object.path(), object.kind().name());
//! }
//! let bridge = machine.get("\\_SB.PCI0").expect("there is a bridge");
//! assert!(matches!(bridge.kind(), Kind::Device));
//! for child in bridge.children() {
//!     println!("{}", child.line()); // \_SB_.PCI0._ADR Name Zero
//! }
//! # Ok(())
//! # }
//! ```
//!
//! [`Survey::read`] reads every table: all that some run of it may declare, each with its condition, and
//! what couldn't be read. [`Machine::load`] loads strictly, and refuses what has faults or computes:
//!
//! [`Machine::load`] gives all objects, in the order of their paths; [`body`] what the method at a
//! path does; [`check`] whether the SSDTs may be loaded in any order; [`rewrite`] the tables in
//! their shortest spelling. Each is a function of the tables' bytes and of the greatest nesting of
//! terms, `depth`, 1 to 4096, which bounds the stack that it takes (`docs/LIBRARY.md` of the
//! repository has the bytes). Nothing is kept between calls, and calls may run in several threads
//! at once.
//!
//! The library loads the tables twice for each call: the first time to learn how much there is.
//!
//! The crate needs `alloc`. With the feature `heap`, which is on by default, the library takes its
//! memory from the global allocator; without it the host defines the three functions of
//! `acpins_heap.h`. The feature `std` gives [`Fault`] the trait `std::error::Error`.
#![no_std]
#![warn(missing_docs)]

extern crate alloc;
#[cfg(feature = "std")]
extern crate std;

mod calls;
mod data;
mod fault;
#[cfg(feature = "heap")]
mod heap;
mod kind;
mod machine;
mod path;
mod raw;
mod survey;
mod value;

pub use calls::{body, check, rewrite, Body, Satisfied, Verdict};
pub use data::{Data, Elements};
pub use fault::{
    BodyReason, CodeReason, DeclarationReason, Fault, Reason, SignatureReason, TableReason,
};
pub use kind::{Constant, FieldUnit, Kind, Space, Width};
pub use machine::{Children, Code, Links, Machine, Object, Objects};
pub use path::{Path, Segments};
pub use survey::{Entry, Finding, Literal, LiteralKind, Survey, Text};
pub use value::{eisa_id, Resource, Resources, Value, Values};
