//! Constant data of Names.
use crate::kind::Constant;
use crate::machine::Machine;
use core::fmt;
use core::iter::FusedIterator;

/// Constant data, as it was written. Nothing of it is copied.
#[derive(Clone, Copy, Debug)]
pub enum Data<'m> {
    /// A constant.
    Integer(Constant),
    /// A string, without its 00: characters of ASCII.
    String(&'m str),
    /// A buffer.
    Buffer {
        /// Its size in bytes, which may differ from how many are written down.
        size: Constant,
        /// The bytes that are written down.
        bytes: &'m [u8],
    },
    /// A package.
    Package {
        /// How many elements it has, which may differ from how many are written down.
        count: u8,
        /// The elements that are written down.
        elements: Elements<'m>,
    },
    /// A package whose count is a constant of any form.
    VarPackage {
        /// How many elements it has, which may differ from how many are written down.
        count: Constant,
        /// The elements that are written down.
        elements: Elements<'m>,
    },
    /// The name of an object, an element of a package, as it was written: `^FOO_.BAR_`. It is not
    /// searched.
    Reference(&'m str),
}

impl<'m> Data<'m> {
    /// The data at a place of the machine's parts.
    pub(crate) fn at(machine: &'m Machine, place: u64) -> Option<Data<'m>> {
        let part = machine.part(place)?;
        let elements = Elements {
            machine,
            next: place + 1,
            end: part.behind,
        };
        let constant = Constant::of(part.constant);
        Some(match part.kind {
            0 => Data::Integer(constant),
            1 => Data::String(machine.string_of(part)),
            2 => Data::Buffer {
                size: constant,
                bytes: machine.bytes_of(part),
            },
            3 => Data::Package {
                count: part.constant.value as u8,
                elements,
            },
            4 => Data::VarPackage {
                count: constant,
                elements,
            },
            _ => Data::Reference(machine.string_of(part)),
        })
    }
}

impl fmt::Display for Data<'_> {
    /// As `acpins list` prints it: `Buffer(0x02){01 02}`, `Package(2){Zero, \_SB_.PCI0}`.
    fn fmt(&self, f: &mut fmt::Formatter<'_>) -> fmt::Result {
        match self {
            Data::Integer(constant) => write!(f, "{constant}"),
            Data::String(text) => {
                f.write_str("\"")?;
                for c in text.chars() {
                    match c {
                        '"' | '\\' => write!(f, "\\x{:02X}", u32::from(c))?,
                        ' '..='~' => write!(f, "{c}")?,
                        _ => write!(f, "\\x{:02X}", u32::from(c))?,
                    }
                }
                f.write_str("\"")
            }
            Data::Buffer { size, bytes } => {
                write!(f, "Buffer({size}){{")?;
                for (i, byte) in bytes.iter().enumerate() {
                    write!(f, "{}{byte:02X}", if i > 0 { " " } else { "" })?;
                }
                f.write_str("}")
            }
            Data::Package { count, elements } => write!(f, "Package({count}){elements}"),
            Data::VarPackage { count, elements } => write!(f, "VarPackage({count}){elements}"),
            Data::Reference(name) => f.write_str(name),
        }
    }
}

/// The elements of a package.
#[derive(Clone, Copy)]
pub struct Elements<'m> {
    machine: &'m Machine,
    next: u64,
    end: u64,
}

impl<'m> Iterator for Elements<'m> {
    type Item = Data<'m>;

    fn next(&mut self) -> Option<Data<'m>> {
        if self.next >= self.end {
            return None;
        }
        let data = Data::at(self.machine, self.next)?;
        self.next = self.machine.part(self.next)?.behind;
        Some(data)
    }
}

impl FusedIterator for Elements<'_> {}

impl fmt::Display for Elements<'_> {
    fn fmt(&self, f: &mut fmt::Formatter<'_>) -> fmt::Result {
        f.write_str("{")?;
        for (i, element) in self.enumerate() {
            write!(f, "{}{element}", if i > 0 { ", " } else { "" })?;
        }
        f.write_str("}")
    }
}

impl fmt::Debug for Elements<'_> {
    fn fmt(&self, f: &mut fmt::Formatter<'_>) -> fmt::Result {
        f.debug_list().entries(*self).finish()
    }
}
