//! The data of Names in a survey.
use crate::kind::Constant;
use crate::survey::Survey;
use alloc::string::String;

/// The data of a Name, as it was written. Nothing of it is copied.
#[derive(Clone, Copy, Debug)]
#[non_exhaustive]
pub enum Value<'s> {
    /// A constant.
    Integer(Constant),
    /// A string, without its 00.
    String(&'s str),
    /// The bytes of a buffer that are written down.
    Buffer(&'s [u8]),
    /// The elements of a package that are written down.
    Package(Values<'s>),
    /// The name of an object, an element of a package, as it was written. It is not searched.
    Reference(&'s str),
    /// A term that only running the code tells.
    Computed,
}

impl<'s> Value<'s> {
    /// The data at a place of the survey's parts.
    pub(crate) fn at(survey: &'s Survey<'s>, place: u64) -> Option<Value<'s>> {
        let part = survey.part(place)?;
        let text = || core::str::from_utf8(survey.bytes_of(part)).unwrap_or("");
        Some(match part.kind {
            0 => Value::Integer(Constant::of(part.constant)),
            1 => Value::String(text()),
            2 => Value::Buffer(survey.bytes_of(part)),
            3 | 4 => Value::Package(Values {
                survey,
                next: place + 1,
                end: part.behind,
            }),
            5 => Value::Reference(text()),
            _ => Value::Computed,
        })
    }

    /// The id that it is: a string, or the characters of an EISA id (ACPI 6.5, 6.1.5).
    pub fn id(self) -> Option<String> {
        match self {
            Value::String(text) => Some(String::from(text)),
            Value::Integer(constant) => eisa_id(u32::try_from(constant.value()?).ok()?),
            _ => None,
        }
    }

    /// The resource descriptors of a buffer.
    pub fn resources(self) -> Resources<'s> {
        Resources {
            bytes: match self {
                Value::Buffer(bytes) => bytes,
                _ => &[],
            },
        }
    }
}

/// The elements of a package.
#[derive(Clone, Copy, Debug)]
pub struct Values<'s> {
    survey: &'s Survey<'s>,
    next: u64,
    end: u64,
}

impl<'s> Iterator for Values<'s> {
    type Item = Value<'s>;

    fn next(&mut self) -> Option<Value<'s>> {
        if self.next >= self.end {
            return None;
        }
        let (value, part) = (
            Value::at(self.survey, self.next)?,
            self.survey.part(self.next)?,
        );
        self.next = part.behind;
        Some(value)
    }
}

/// The seven characters of an EISA id, as `PNP0A03` of 0x030AD041.
pub fn eisa_id(number: u32) -> Option<String> {
    let swapped = number.swap_bytes();
    let letter = |at: u32| {
        u8::try_from(swapped >> at & 31)
            .ok()
            .filter(|it| (1..=26).contains(it))
    };
    if swapped >> 31 != 0 {
        return None;
    }
    let mut id = String::new();
    for at in [26, 21, 16] {
        id.push(char::from(b'@' + letter(at)?));
    }
    for at in [12, 8, 4, 0] {
        id.push(char::from_digit(swapped >> at & 15, 16)?.to_ascii_uppercase());
    }
    Some(id)
}

/// What a resource descriptor is of (ACPI 6.5, 6.4).
#[derive(Clone, Copy, Debug, PartialEq, Eq, Hash)]
#[non_exhaustive]
pub enum Resource {
    /// So many interrupts, and the first.
    Irq(u64, u64),
    /// A mask of channels.
    Dma(u64),
    /// Ports from the first on.
    Io(u64, u64),
    /// Bytes from an address on.
    Memory(u64, u64),
    /// Bus numbers from the first on.
    Bus(u64, u64),
    /// Any other descriptor, by its tag: of a small item its type, of a large one 0x80 and its type.
    Other(u8),
}

/// The descriptors of a buffer, up to its End Tag.
#[derive(Clone, Copy, Debug)]
pub struct Resources<'s> {
    bytes: &'s [u8],
}

fn number(bytes: &[u8], at: usize, width: usize) -> Option<u64> {
    let found = bytes.get(at..at + width)?;
    Some(
        found
            .iter()
            .rev()
            .fold(0, |sum, it| sum << 8 | u64::from(*it)),
    )
}

fn address_space(inside: &[u8], width: usize, skipped: usize) -> Option<Resource> {
    let at = 3 + skipped;
    let (base, size) = (
        number(inside, at + width, width)?,
        number(inside, at + 4 * width, width)?,
    );
    match inside.first()? {
        0 => Some(Resource::Memory(base, size)),
        1 => Some(Resource::Io(base, size)),
        2 => Some(Resource::Bus(base, size)),
        _ => None,
    }
}

fn resource(tag: u8, inside: &[u8]) -> Option<Resource> {
    let of = |at, width| number(inside, at, width);
    match tag {
        0x04 => {
            let mask = of(0, 2)?;
            Some(Resource::Irq(
                u64::from(mask.trailing_zeros().min(15)),
                u64::from(mask.count_ones()),
            ))
        }
        0x05 => Some(Resource::Dma(of(0, 1)?)),
        0x08 => Some(Resource::Io(of(1, 2)?, of(6, 1)?)),
        0x09 => Some(Resource::Io(of(0, 2)? & 0x3FF, of(2, 1)?)),
        0x81 => Some(Resource::Memory(of(1, 2)? << 8, of(7, 2)? << 8)),
        0x85 => Some(Resource::Memory(of(1, 4)?, of(13, 4)?)),
        0x86 => Some(Resource::Memory(of(1, 4)?, of(5, 4)?)),
        0x87 => address_space(inside, 4, 0),
        0x88 => address_space(inside, 2, 0),
        0x8A => address_space(inside, 8, 0),
        0x8B => address_space(inside, 8, 2),
        0x89 => of(1, 1)
            .filter(|it| *it > 0)
            .and_then(|count| Some(Resource::Irq(of(2, 4)?, count))),
        _ => None,
    }
}

impl Iterator for Resources<'_> {
    type Item = Resource;

    fn next(&mut self) -> Option<Resource> {
        let first = *self.bytes.first()?;
        let (tag, head, length) = match first >> 7 {
            1 => (first, 3, number(self.bytes, 1, 2)? as usize),
            _ => (first >> 3, 1, usize::from(first & 7)),
        };
        let inside = self.bytes.get(head..head + length)?;
        if tag == 15 {
            return None;
        }
        self.bytes = &self.bytes[head + length..];
        Some(resource(tag, inside).unwrap_or(Resource::Other(tag)))
    }
}
