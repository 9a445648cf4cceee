//! What stands at a path.
use crate::data::Data;
use crate::raw;
use core::fmt;

/// A constant, in the form in which it was written (ACPI 6.5, 20.2.3).
#[derive(Clone, Copy, Debug, PartialEq, Eq, Hash)]
pub enum Constant {
    /// Zero.
    Zero,
    /// One.
    One,
    /// All bits set: 32 of them where the DSDT's revision is below 2, else 64.
    Ones,
    /// What it is only the system that runs the code tells.
    Revision,
    /// One byte.
    Byte(u8),
    /// Two bytes.
    Word(u16),
    /// Four bytes.
    DWord(u32),
    /// Eight bytes.
    QWord(u64),
}

impl Constant {
    pub(crate) fn of(constant: raw::Constant) -> Constant {
        let value = constant.value;
        match constant.form {
            0 => Constant::Zero,
            1 => Constant::One,
            2 => Constant::Ones,
            3 => Constant::Revision,
            4 => Constant::Byte(value as u8),
            5 => Constant::Word(value as u16),
            6 => Constant::DWord(value as u32),
            _ => Constant::QWord(value),
        }
    }

    /// Its value: `u64::MAX` of Ones, none of Revision.
    pub fn value(self) -> Option<u64> {
        match self {
            Constant::Zero => Some(0),
            Constant::One => Some(1),
            Constant::Ones => Some(u64::MAX),
            Constant::Revision => None,
            Constant::Byte(value) => Some(value.into()),
            Constant::Word(value) => Some(value.into()),
            Constant::DWord(value) => Some(value.into()),
            Constant::QWord(value) => Some(value),
        }
    }
}

impl fmt::Display for Constant {
    /// As `acpins list` prints it: `Zero`, `0x0A`.
    fn fmt(&self, f: &mut fmt::Formatter<'_>) -> fmt::Result {
        match self {
            Constant::Zero => f.write_str("Zero"),
            Constant::One => f.write_str("One"),
            Constant::Ones => f.write_str("Ones"),
            Constant::Revision => f.write_str("Revision"),
            Constant::Byte(value) => write!(f, "0x{value:02X}"),
            Constant::Word(value) => write!(f, "0x{value:04X}"),
            Constant::DWord(value) => write!(f, "0x{value:08X}"),
            Constant::QWord(value) => write!(f, "0x{value:016X}"),
        }
    }
}

/// The address space of an operation region (ACPI 6.5, 20.2.5.2, RegionSpace).
#[derive(Clone, Copy, Debug, PartialEq, Eq, Hash)]
pub enum Space {
    /// 00
    SystemMemory,
    /// 01
    SystemIo,
    /// 02
    PciConfig,
    /// 03
    EmbeddedControl,
    /// 04
    SmBus,
    /// 05
    SystemCmos,
    /// 06
    PciBarTarget,
    /// 07
    Ipmi,
    /// 08
    GeneralPurposeIo,
    /// 09
    GenericSerialBus,
    /// 0A
    Pcc,
    /// 0B
    PlatformRtMechanism,
    /// 0C to 7F: kept for later.
    Reserved(u8),
    /// 80 to FF: left to makers.
    Oem(u8),
}

impl From<u8> for Space {
    fn from(number: u8) -> Space {
        match number {
            0x00 => Space::SystemMemory,
            0x01 => Space::SystemIo,
            0x02 => Space::PciConfig,
            0x03 => Space::EmbeddedControl,
            0x04 => Space::SmBus,
            0x05 => Space::SystemCmos,
            0x06 => Space::PciBarTarget,
            0x07 => Space::Ipmi,
            0x08 => Space::GeneralPurposeIo,
            0x09 => Space::GenericSerialBus,
            0x0A => Space::Pcc,
            0x0B => Space::PlatformRtMechanism,
            0x0C..=0x7F => Space::Reserved(number),
            0x80.. => Space::Oem(number),
        }
    }
}

impl From<Space> for u8 {
    fn from(space: Space) -> u8 {
        match space {
            Space::SystemMemory => 0x00,
            Space::SystemIo => 0x01,
            Space::PciConfig => 0x02,
            Space::EmbeddedControl => 0x03,
            Space::SmBus => 0x04,
            Space::SystemCmos => 0x05,
            Space::PciBarTarget => 0x06,
            Space::Ipmi => 0x07,
            Space::GeneralPurposeIo => 0x08,
            Space::GenericSerialBus => 0x09,
            Space::Pcc => 0x0A,
            Space::PlatformRtMechanism => 0x0B,
            Space::Reserved(number) | Space::Oem(number) => number,
        }
    }
}

impl fmt::Display for Space {
    /// As ASL has it; what has no name there by its number.
    fn fmt(&self, f: &mut fmt::Formatter<'_>) -> fmt::Result {
        f.write_str(match self {
            Space::SystemMemory => "SystemMemory",
            Space::SystemIo => "SystemIO",
            Space::PciConfig => "PCI_Config",
            Space::EmbeddedControl => "EmbeddedControl",
            Space::SmBus => "SMBus",
            Space::SystemCmos => "SystemCMOS",
            Space::PciBarTarget => "PciBarTarget",
            Space::Ipmi => "IPMI",
            Space::GeneralPurposeIo => "GeneralPurposeIO",
            Space::GenericSerialBus => "GenericSerialBus",
            Space::Pcc => "PCC",
            Space::PlatformRtMechanism => "PlatformRtMechanism",
            Space::Reserved(number) | Space::Oem(number) => return write!(f, "0x{number:02X}"),
        })
    }
}

/// A unit of a field list.
#[derive(Clone, Copy, Debug, PartialEq, Eq, Hash)]
pub struct FieldUnit {
    /// FieldFlags: bits 0 to 3 the access type, bit 4 the lock rule, bits 5 and 6 the update rule.
    pub flags: u8,
    /// Where it begins, in bits.
    pub offset: u64,
    /// Its width, in bits.
    pub bits: u64,
}

/// The width of a Create field.
#[derive(Clone, Copy, Debug, PartialEq, Eq, Hash)]
pub enum Width {
    /// One bit.
    Bit,
    /// 8 bits.
    Byte,
    /// 16 bits.
    Word,
    /// 32 bits.
    DWord,
    /// 64 bits.
    QWord,
}

impl Width {
    fn of(bits: u64) -> Width {
        match bits {
            1 => Width::Bit,
            8 => Width::Byte,
            16 => Width::Word,
            32 => Width::DWord,
            _ => Width::QWord,
        }
    }

    /// How many bits.
    pub fn bits(self) -> u8 {
        match self {
            Width::Bit => 1,
            Width::Byte => 8,
            Width::Word => 16,
            Width::DWord => 32,
            Width::QWord => 64,
        }
    }
}

/// What stands at a path, and what is known of it.
#[derive(Clone, Copy, Debug)]
pub enum Kind<'m> {
    /// The root of the namespace.
    Root,
    /// A predefined scope, as `\_SB_` (ACPI 6.5, 5.3.1).
    Scope,
    /// A predefined object of which nothing more is known: `\_OS_` and `\_REV`.
    Predefined,
    /// A Device.
    Device,
    /// A Processor, of ACPI 6.3 and before.
    Processor {
        /// ProcID.
        id: u8,
        /// PblkAddr: an address in system I/O.
        block: u32,
        /// PblkLen, in bytes.
        length: u8,
    },
    /// A PowerResource.
    PowerResource {
        /// SystemLevel: the deepest sleep state in which it stays on.
        level: u8,
        /// ResourceOrder.
        order: u16,
    },
    /// A ThermalZone.
    ThermalZone,
    /// A Name, with its data.
    Name(Data<'m>),
    /// A Method.
    Method {
        /// How many it takes, 0 to 7.
        arguments: u8,
        /// Whether one call at a time runs.
        serialized: bool,
        /// 0 to 15.
        sync_level: u8,
    },
    /// An OperationRegion.
    Region {
        /// The address space.
        space: Space,
        /// RegionOffset, in bytes.
        offset: Constant,
        /// RegionLen, in bytes.
        length: Constant,
    },
    /// A Mutex.
    Mutex {
        /// 0 to 15: bits 0 to 3 of its flags, whose other bits are reserved.
        sync_level: u8,
        /// SyncFlags, as they were written.
        flags: u8,
    },
    /// An Event.
    Event,
    /// A unit of a Field. Its link is the region.
    Field(FieldUnit),
    /// A unit of an IndexField. Its links are the index and the data register.
    IndexField(FieldUnit),
    /// A unit of a BankField. Its links are the region and the bank register.
    BankField {
        /// The unit.
        unit: FieldUnit,
        /// The value that selects the bank.
        bank: Constant,
    },
    /// A Create field of a fixed width, as by CreateDWordField. Its link is the source.
    Create {
        /// Its width.
        width: Width,
        /// Where it begins in its source: in bytes, of one bit in bits.
        index: Constant,
    },
    /// A field of any width, by CreateField. Its link is the source.
    CreateField {
        /// Where it begins in its source, in bits.
        index: Constant,
        /// Its width, in bits.
        bits: Constant,
    },
}

impl<'m> Kind<'m> {
    /// The kind of an object; of a Name `data` is its data.
    pub(crate) fn of(object: &raw::Object, data: Option<Data<'m>>) -> Kind<'m> {
        let [a, b, c, d, e, _] = object.numbers;
        let constant = |form, value| Constant::of(raw::Constant { form, value });
        let unit = FieldUnit {
            flags: a as u8,
            offset: b,
            bits: c,
        };
        match object.kind {
            0 => Kind::Root,
            1 => Kind::Scope,
            3 => Kind::Device,
            4 => Kind::Processor {
                id: a as u8,
                block: b as u32,
                length: c as u8,
            },
            5 => Kind::PowerResource {
                level: a as u8,
                order: b as u16,
            },
            6 => Kind::ThermalZone,
            7 => data.map_or(Kind::Predefined, Kind::Name),
            8 => Kind::Method {
                arguments: a as u8 & 7,
                serialized: a & 8 != 0,
                sync_level: a as u8 >> 4,
            },
            9 => Kind::Region {
                space: Space::from(a as u8),
                offset: constant(b, c),
                length: constant(d, e),
            },
            10 => Kind::Mutex {
                sync_level: a as u8 & 15,
                flags: a as u8,
            },
            11 => Kind::Event,
            12 => Kind::Field(unit),
            13 => Kind::IndexField(unit),
            14 => Kind::BankField {
                unit,
                bank: constant(d, e),
            },
            15 => Kind::Create {
                width: Width::of(a),
                index: constant(b, c),
            },
            16 => Kind::CreateField {
                index: constant(a, b),
                bits: constant(c, d),
            },
            _ => Kind::Predefined,
        }
    }

    /// Its word in a listing: `Device`, `OperationRegion`, `CreateDWordField`.
    pub fn name(self) -> &'static str {
        match self {
            Kind::Root => "Root",
            Kind::Scope => "Scope",
            Kind::Predefined => "Predefined",
            Kind::Device => "Device",
            Kind::Processor { .. } => "Processor",
            Kind::PowerResource { .. } => "PowerResource",
            Kind::ThermalZone => "ThermalZone",
            Kind::Name(_) => "Name",
            Kind::Method { .. } => "Method",
            Kind::Region { .. } => "OperationRegion",
            Kind::Mutex { .. } => "Mutex",
            Kind::Event => "Event",
            Kind::Field(_) => "Field",
            Kind::IndexField(_) => "IndexField",
            Kind::BankField { .. } => "BankField",
            Kind::Create { width, .. } => match width {
                Width::Bit => "CreateBitField",
                Width::Byte => "CreateByteField",
                Width::Word => "CreateWordField",
                Width::DWord => "CreateDWordField",
                Width::QWord => "CreateQWordField",
            },
            Kind::CreateField { .. } => "CreateField",
        }
    }
}

#[cfg(test)]
mod tests {
    use super::*;

    #[test]
    fn each_space_has_its_number() {
        assert!((0..=u8::MAX).all(|number| u8::from(Space::from(number)) == number));
    }
}
