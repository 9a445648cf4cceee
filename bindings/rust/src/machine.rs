//! What tables load to.
use crate::data::Data;
use crate::fault::Fault;
use crate::kind::Kind;
use crate::path::{compare, Path};
use crate::raw;
use alloc::vec::Vec;
use core::cmp::Ordering;
use core::fmt;
use core::iter::FusedIterator;
use core::ops::Range;

/// What a DSDT and SSDTs load to: all objects of the namespace, and what their links find.
#[derive(Default)]
pub struct Machine {
    objects: Vec<raw::Object>,
    targets: Vec<u64>,
    text: Vec<u8>,
    parts: Vec<raw::Part>,
    bytes: Vec<u8>,
}

impl Machine {
    /// Loads tables, each whole with its header: the first is the DSDT, and SSDTs follow in the
    /// order of their load. `depth` is the greatest nesting of terms, 1 to 4096.
    ///
    /// # Errors
    /// A table can't be loaded, an allocation failed, there is no table, or the depth is none.
    pub fn load(tables: &[&[u8]], depth: u32) -> Result<Machine, Fault> {
        let lent = raw::lend(tables)?;
        let mut machine = Machine::default();
        let mut outcome = raw::Outcome::default();
        loop {
            let mut arrays = machine.arrays();
            // SAFETY: each pointer and length is of a slice that nothing else reads or writes
            // during the call, and the library keeps none of them.
            let status = unsafe {
                raw::acpins_load(lent.as_ptr(), lent.len(), depth, &mut arrays, &mut outcome)
            };
            match status {
                raw::OK => return Ok(machine),
                raw::NO_ROOM if !machine.has_room(&outcome) => machine.make_room(&outcome)?,
                raw::REFUSED if outcome.text as usize > machine.text.len() => {
                    raw::resize(&mut machine.text, outcome.text)?
                }
                _ => return Err(Fault::of(status, lent.len(), &outcome, &machine.text)),
            }
        }
    }

    fn has_room(&self, outcome: &raw::Outcome) -> bool {
        let of = |needed: u64, room: usize| needed <= room as u64;
        of(outcome.objects, self.objects.len())
            && of(outcome.targets, self.targets.len())
            && of(outcome.text, self.text.len())
            && of(outcome.parts, self.parts.len())
            && of(outcome.bytes, self.bytes.len())
    }

    fn make_room(&mut self, outcome: &raw::Outcome) -> Result<(), Fault> {
        raw::resize(&mut self.objects, outcome.objects)?;
        raw::resize(&mut self.targets, outcome.targets)?;
        raw::resize(&mut self.text, outcome.text)?;
        raw::resize(&mut self.parts, outcome.parts)?;
        raw::resize(&mut self.bytes, outcome.bytes)
    }

    fn arrays(&mut self) -> raw::Arrays {
        raw::Arrays {
            objects: self.objects.as_mut_ptr(),
            object_room: self.objects.len(),
            targets: self.targets.as_mut_ptr(),
            target_room: self.targets.len(),
            text: self.text.as_mut_ptr(),
            text_room: self.text.len(),
            parts: self.parts.as_mut_ptr(),
            part_room: self.parts.len(),
            bytes: self.bytes.as_mut_ptr(),
            byte_room: self.bytes.len(),
        }
    }

    /// The root of the namespace.
    pub fn root(&self) -> Object<'_> {
        Object {
            machine: self,
            place: 0,
        }
    }

    /// All objects, in the order of their paths: each stands before those below it.
    pub fn objects(&self) -> Objects<'_> {
        Objects {
            machine: self,
            places: 0..self.objects.len(),
        }
    }

    /// The object at a path, as `\_SB_.PCI0`. A segment may be short: it is filled with `_`, so
    /// that `\_SB.PCI0` is the same path.
    pub fn get(&self, path: &str) -> Option<Object<'_>> {
        let (mut low, mut high) = (0, self.objects.len());
        while low < high {
            let place = low + (high - low) / 2;
            let object = Object {
                machine: self,
                place,
            };
            match compare(object.path().as_str().as_bytes(), path.as_bytes()) {
                Ordering::Equal => return Some(object),
                Ordering::Less => low = place + 1,
                Ordering::Greater => high = place,
            }
        }
        None
    }

    /// The listing, as `acpins list` prints it: a line for each object.
    pub fn text(&self) -> &str {
        self.text_at(0, self.text.len() as u64)
    }

    fn text_at(&self, begin: u64, length: u64) -> &str {
        let bytes = slice(&self.text, begin, length);
        core::str::from_utf8(bytes).unwrap_or("")
    }

    pub(crate) fn part(&self, place: u64) -> Option<&raw::Part> {
        self.parts.get(usize::try_from(place).ok()?)
    }

    pub(crate) fn bytes_of(&self, part: &raw::Part) -> &[u8] {
        slice(&self.bytes, part.byte, part.bytes)
    }

    pub(crate) fn string_of(&self, part: &raw::Part) -> &str {
        core::str::from_utf8(self.bytes_of(part)).unwrap_or("")
    }
}

/// Some elements of a list.
fn slice<T>(list: &[T], begin: u64, length: u64) -> &[T] {
    let end = begin.saturating_add(length) as usize;
    list.get(begin as usize..end).unwrap_or(&[])
}

impl<'m> IntoIterator for &'m Machine {
    type Item = Object<'m>;
    type IntoIter = Objects<'m>;

    fn into_iter(self) -> Objects<'m> {
        self.objects()
    }
}

impl fmt::Debug for Machine {
    fn fmt(&self, f: &mut fmt::Formatter<'_>) -> fmt::Result {
        f.debug_list().entries(self).finish()
    }
}

/// An object of a machine.
#[derive(Clone, Copy)]
pub struct Object<'m> {
    machine: &'m Machine,
    place: usize,
}

impl<'m> Object<'m> {
    fn record(self) -> &'m raw::Object {
        &self.machine.objects[self.place]
    }

    fn at(self, place: u64) -> Option<Object<'m>> {
        let place = usize::try_from(place).ok()?;
        (place < self.machine.objects.len()).then_some(Object {
            machine: self.machine,
            place,
        })
    }

    /// Its place among the objects, from 0.
    pub fn place(self) -> usize {
        self.place
    }

    /// Its path.
    pub fn path(self) -> Path<'m> {
        let record = self.record();
        Path(self.machine.text_at(record.line, record.path_length))
    }

    /// Its line of the listing, without the line end: `\_SB_.PCI0._ADR Name Zero`.
    pub fn line(self) -> &'m str {
        let record = self.record();
        let line = self.machine.text_at(record.line, record.line_length);
        line.strip_suffix('\n').unwrap_or(line)
    }

    /// What it is.
    pub fn kind(self) -> Kind<'m> {
        let record = self.record();
        Kind::of(record, Data::at(self.machine, record.part))
    }

    /// The object that it stands in; none of the root.
    pub fn parent(self) -> Option<Object<'m>> {
        self.at(self.record().parent)
    }

    /// The objects right below it, in the order of their names.
    pub fn children(self) -> Children<'m> {
        Children {
            below: self.descendants(),
        }
    }

    /// All objects below it, in the order of their paths.
    pub fn descendants(self) -> Objects<'m> {
        let end = (self.record().below as usize).min(self.machine.objects.len());
        Objects {
            machine: self.machine,
            places: self.place + 1..end,
        }
    }

    /// What its links find, none where one finds nothing: the region of a field; index and data
    /// register of an index field; region and bank register of a bank field; the source of a
    /// Create field.
    pub fn links(self) -> Links<'m> {
        let record = self.record();
        Links {
            object: self,
            targets: slice(&self.machine.targets, record.target, record.targets).iter(),
        }
    }

    /// Where its body stands; none of what is no method that a table declares.
    pub fn code(self) -> Option<Code> {
        let record = self.record();
        (record.code_table != raw::NONE).then_some(Code {
            table: record.code_table as usize,
            offset: record.code_place as usize,
            length: record.code_length as usize,
        })
    }
}

impl PartialEq for Object<'_> {
    /// Whether they are the same object of the same machine.
    fn eq(&self, other: &Self) -> bool {
        core::ptr::eq(self.machine, other.machine) && self.place == other.place
    }
}

impl Eq for Object<'_> {}

impl fmt::Debug for Object<'_> {
    fn fmt(&self, f: &mut fmt::Formatter<'_>) -> fmt::Result {
        f.write_str(self.line())
    }
}

/// Where the body of a method stands (TermList; ACPI 6.5, 20.2.5.2).
#[derive(Clone, Copy, Debug, PartialEq, Eq, Hash)]
pub struct Code {
    /// The table, from 0.
    pub table: usize,
    /// In bytes from the table's first byte.
    pub offset: usize,
    /// In bytes.
    pub length: usize,
}

impl Code {
    /// Its bytes, of the tables that were loaded.
    pub fn bytes<'t>(self, tables: &[&'t [u8]]) -> Option<&'t [u8]> {
        let end = self.offset.checked_add(self.length)?;
        tables.get(self.table)?.get(self.offset..end)
    }
}

/// Objects of a machine, in the order of their paths.
#[derive(Clone)]
pub struct Objects<'m> {
    machine: &'m Machine,
    places: Range<usize>,
}

impl<'m> Iterator for Objects<'m> {
    type Item = Object<'m>;

    fn next(&mut self) -> Option<Object<'m>> {
        let place = self.places.next()?;
        Some(Object {
            machine: self.machine,
            place,
        })
    }

    fn size_hint(&self) -> (usize, Option<usize>) {
        self.places.size_hint()
    }

    fn nth(&mut self, n: usize) -> Option<Object<'m>> {
        let place = self.places.nth(n)?;
        Some(Object {
            machine: self.machine,
            place,
        })
    }
}

impl DoubleEndedIterator for Objects<'_> {
    fn next_back(&mut self) -> Option<Self::Item> {
        let place = self.places.next_back()?;
        Some(Object {
            machine: self.machine,
            place,
        })
    }
}

impl ExactSizeIterator for Objects<'_> {}

impl FusedIterator for Objects<'_> {}

/// The objects right below one.
#[derive(Clone)]
pub struct Children<'m> {
    below: Objects<'m>,
}

impl<'m> Iterator for Children<'m> {
    type Item = Object<'m>;

    fn next(&mut self) -> Option<Object<'m>> {
        let child = self.below.next()?;
        self.below.places.start = child.descendants().places.end.max(child.place + 1);
        Some(child)
    }
}

impl FusedIterator for Children<'_> {}

/// What the links of an object find.
#[derive(Clone)]
pub struct Links<'m> {
    object: Object<'m>,
    targets: core::slice::Iter<'m, u64>,
}

impl<'m> Iterator for Links<'m> {
    type Item = Option<Object<'m>>;

    fn next(&mut self) -> Option<Option<Object<'m>>> {
        self.targets.next().map(|place| self.object.at(*place))
    }

    fn size_hint(&self) -> (usize, Option<usize>) {
        self.targets.size_hint()
    }
}

impl ExactSizeIterator for Links<'_> {}

impl FusedIterator for Links<'_> {}
