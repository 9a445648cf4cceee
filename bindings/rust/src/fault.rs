//! Why a call answers nothing else.
use crate::raw;
use alloc::collections::TryReserveError;
use alloc::string::String;
use core::fmt;

macro_rules! reasons {
    ($(#[$doc:meta])* $name:ident, $letter:literal { $($(#[$variant_doc:meta])* $number:literal $variant:ident),+ $(,)? }) => {
        $(#[$doc])*
        #[derive(Clone, Copy, Debug, PartialEq, Eq, Hash)]
        #[non_exhaustive]
        pub enum $name {
            $($(#[$variant_doc])* $variant,)+
            /// A number that this version has no name for.
            Other(u8),
        }

        impl $name {
            pub(crate) fn of(number: u8) -> $name {
                match number {
                    $($number => $name::$variant,)+
                    other => $name::Other(other),
                }
            }

            /// Its number.
            pub fn number(self) -> u8 {
                match self {
                    $($name::$variant => $number,)+
                    $name::Other(number) => number,
                }
            }
        }

        impl fmt::Display for $name {
            fn fmt(&self, f: &mut fmt::Formatter<'_>) -> fmt::Result {
                match self {
                    $($name::$variant => f.write_str(concat!($letter, stringify!($number), " ", stringify!($variant))),)+
                    $name::Other(number) => write!(f, concat!($letter, "{}"), number),
                }
            }
        }
    };
}

reasons! {
    /// Why some bytes are no table (ACPI 6.5, 5.2.6).
    TableReason, "T" {
        /// Fewer than 36 bytes.
        1 Short,
        /// Length is below 36.
        2 BadLength,
        /// Length is above 16,777,216.
        3 TooLong,
        /// Fewer bytes than Length.
        4 Cut,
        /// The sum of all bytes isn't 0 modulo 256.
        5 BadSum,
    }
}

reasons! {
    /// Why a table can't stand where it does.
    SignatureReason, "L" {
        /// The first table is no DSDT.
        1 NotDsdt,
        /// A later one is no SSDT.
        2 NotSsdt,
        /// Bytes follow the table.
        3 Trailing,
    }
}

reasons! {
    /// Why a table's code can't be read (`docs/FORMAT.md` of the repository).
    CodeReason, "K" {
        /// The package ends where the form needs a byte.
        1 Cut,
        /// No term begins there.
        2 BadOpcode,
        /// A package length with reserved bits, or an External's count above 7.
        3 ReservedBits,
        /// A name must stand there, and none does.
        4 BadName,
        /// A package length past the end of what it stands in.
        5 Overrun,
        /// A term that isn't a constant, where code would have to be run.
        6 Computed,
        /// Alias.
        7 Alias,
        /// If, Else or While outside of a method.
        8 ModuleIf,
        /// Other code outside of a method.
        9 ModuleCode,
        /// Load, LoadTable or Unload.
        10 Load,
        /// No data where data must stand.
        11 NotData,
        /// Terms nest deeper than `depth`.
        12 TooDeep,
        /// A byte above 7F in a string.
        13 BadString,
        /// DataTableRegion.
        14 DataRegion,
    }
}

reasons! {
    /// Why a declaration or a Scope term is refused (`docs/NAMESPACE.md` of the repository).
    DeclarationReason, "E" {
        /// A declared name without segments; the path is that of the current scope.
        1 EmptyName,
        /// A name that leads above the root; the path is that of the current scope.
        2 AboveRoot,
        /// Nothing stands at the name of a Scope term, which is the path.
        3 Missing,
        /// Nothing stands at the path, in which an object is declared.
        4 NoParent,
        /// The object at the path is no scope.
        5 NotAScope,
        /// An object stands at the path already.
        6 Taken,
    }
}

reasons! {
    /// Why a method's body can't be read (`docs/FORMAT.md` of the repository).
    BodyReason, "B" {
        /// The package ends where the form needs a byte.
        1 Cut,
        /// Nothing begins there.
        2 BadOpcode,
        /// A package length with reserved bits.
        3 ReservedBits,
        /// A name must stand there, and none does.
        4 BadName,
        /// A package length past the end of what it stands in.
        5 Overrun,
        /// A term that is no statement.
        6 NotStatement,
        /// A term that has no value.
        7 NotValue,
        /// No target, super name or simple name.
        8 NotTarget,
        /// A term that is left out, as Alias, Scope, Load.
        9 LeftOut,
        /// A byte above 7F in a string.
        10 BadString,
        /// Terms nest deeper than `depth`.
        11 TooDeep,
        /// No data where data must stand.
        12 NotData,
        /// The declared name has no segments, or leads above the root.
        13 BadPlace,
    }
}

/// Why a table can't be loaded.
#[derive(Clone, Debug, PartialEq, Eq)]
#[non_exhaustive]
pub enum Reason {
    /// The bytes are no table.
    Table(TableReason),
    /// The table can't stand there.
    Signature(SignatureReason),
    /// Its code can't be read.
    Code {
        /// Why.
        reason: CodeReason,
        /// Where, in bytes from the table's first byte.
        place: u64,
    },
    /// A declaration or a Scope term is refused.
    Declaration {
        /// Why.
        reason: DeclarationReason,
        /// The path that it is about.
        path: String,
    },
    /// A code that this version has no name for.
    Other(u64),
}

impl Reason {
    /// The reason of a code, with the place or the path that belongs to it.
    pub(crate) fn of(code: u64, place: u64, path: &[u8]) -> Result<Reason, Fault> {
        let number = code as u8;
        Ok(match u8::try_from(code >> 8) {
            Ok(b'T') => Reason::Table(TableReason::of(number)),
            Ok(b'L') => Reason::Signature(SignatureReason::of(number)),
            Ok(b'K') => Reason::Code {
                reason: CodeReason::of(number),
                place,
            },
            Ok(b'E') => Reason::Declaration {
                reason: DeclarationReason::of(number),
                path: owned(path)?,
            },
            _ => Reason::Other(code),
        })
    }
}

impl fmt::Display for Reason {
    fn fmt(&self, f: &mut fmt::Formatter<'_>) -> fmt::Result {
        match self {
            Reason::Table(reason) => write!(f, "{reason}"),
            Reason::Signature(reason) => write!(f, "{reason}"),
            Reason::Code { reason, place } => write!(f, "{reason} at {place}"),
            Reason::Declaration { reason, path } => write!(f, "{reason} {path}"),
            Reason::Other(code) => write!(f, "reason {code:#06X}"),
        }
    }
}

/// Why a call answers nothing else.
#[derive(Clone, Debug, PartialEq, Eq)]
#[non_exhaustive]
pub enum Fault {
    /// A table can't be loaded.
    Refused {
        /// Which, from 0.
        table: usize,
        /// Why.
        reason: Reason,
    },
    /// An allocation failed.
    Memory,
    /// There is no table.
    NoTable,
    /// The depth is none from 1 to 4096.
    BadDepth,
    /// No table declares a method at the path.
    NoMethod,
    /// The text spells no path.
    BadPath,
    /// No object may be at the path.
    NoObject,
    /// The static library has records of another form, of this number, than this version of the
    /// crate.
    Abi(u32),
}

impl Fault {
    /// The fault of a status that is neither OK nor NO_ROOM. At the front of `text` stands the path
    /// that a refusal names.
    pub(crate) fn of(status: u32, tables: usize, outcome: &raw::Outcome, text: &[u8]) -> Fault {
        let path = text.get(..outcome.text as usize).unwrap_or(&[]);
        match status {
            raw::REFUSED => match Reason::of(outcome.reason, outcome.place, path) {
                Ok(reason) => Fault::Refused {
                    table: outcome.table as usize,
                    reason,
                },
                Err(fault) => fault,
            },
            raw::CALL if tables == 0 => Fault::NoTable,
            raw::CALL => Fault::BadDepth,
            raw::NO_METHOD => Fault::NoMethod,
            raw::BAD_PATH => Fault::BadPath,
            _ => Fault::Memory,
        }
    }
}

impl From<TryReserveError> for Fault {
    fn from(_error: TryReserveError) -> Fault {
        Fault::Memory
    }
}

impl fmt::Display for Fault {
    fn fmt(&self, f: &mut fmt::Formatter<'_>) -> fmt::Result {
        match self {
            Fault::Refused { table, reason } => write!(f, "table {table}: {reason}"),
            Fault::Memory => f.write_str("M Memory"),
            Fault::NoTable => f.write_str("no table"),
            Fault::BadDepth => f.write_str("the depth is none from 1 to 4096"),
            Fault::NoMethod => f.write_str("no table declares a method there"),
            Fault::BadPath => f.write_str("bad path"),
            Fault::NoObject => f.write_str("no such path"),
            Fault::Abi(found) => write!(f, "the library has ABI {found}, not {}", raw::ABI),
        }
    }
}

#[cfg(feature = "std")]
impl std::error::Error for Fault {}

/// A text of its own. (What the library writes is ASCII.)
pub(crate) fn owned(text: &[u8]) -> Result<String, Fault> {
    let mut owned = String::new();
    owned.try_reserve_exact(text.len())?;
    owned.push_str(core::str::from_utf8(text).unwrap_or(""));
    Ok(owned)
}
