//! What tables declare or may declare, and under which condition.
use crate::fault::Fault;
use crate::kind::Constant;
use crate::machine::Code;
use crate::path::{compare, Path};
use crate::raw;
use crate::value::Value;
use alloc::string::String;
use alloc::vec::Vec;
use core::cmp::Ordering;
use core::fmt;

/// The survey of a DSDT and SSDTs, of any bytes: all that some run of them may declare, each with its
/// condition, and what couldn't be read.
///
/// ```
/// use acpins::{Survey, Text};
///
/// # fn main() -> Result<(), acpins::Fault> {
/// // If (OSYS) { Device (DEV0) { } } Else { Device (DEV0) { } }
/// let dsdt = b"DSDT\x3C\0\0\0\x02\0                          \
///     \xA0\x0COSYS\x5B\x82\x05DEV0\xA1\x08\x5B\x82\x05DEV0";
/// let survey = Survey::read(&[dsdt], 64)?;
/// for entry in survey.at("\\DEV0") {
///     let condition: Vec<&str> = entry.condition().iter().map(|it| it.text()).collect();
///     println!("{} is a {} ? {}", entry.path(), entry.kind_name(), condition.join(" "));
/// }
/// assert_eq!(survey.at("\\DEV0").count(), 2);
/// assert!(survey.text(Text::List)?.contains("\\DEV0 Device ? not(OSYS)"));
/// # Ok(())
/// # }
/// ```
pub struct Survey<'t> {
    tables: Vec<raw::Table>,
    _tables: core::marker::PhantomData<&'t [u8]>,
    depth: u32,
    outcome: raw::SurveyOutcome,
    entries: Vec<raw::Entry>,
    targets: Vec<raw::Target>,
    literals: Vec<raw::Literal>,
    findings: Vec<raw::Finding>,
    text: Vec<u8>,
    parts: Vec<raw::Part>,
    bytes: Vec<u8>,
}

/// A text of a survey: what the program `acpins-survey` prints, without the names of files.
#[derive(Clone, Copy, Debug, PartialEq, Eq)]
#[non_exhaustive]
pub enum Text<'a> {
    /// A line for each entry, problem and note.
    List,
    /// The same, with the objects that methods declare.
    ListWithBodies,
    /// What each byte is.
    Map,
    /// Which methods are read, and why not.
    Bodies,
    /// The entries at a path, with the bodies of their methods.
    Show(&'a str),
    /// Where the objects at a path and below are used; of an empty path where all are.
    Uses(&'a str),
    /// What is wrong or probably a mistake.
    Check,
    /// An overview for people.
    Report,
    /// The overview, with nothing left out.
    ReportAll,
    /// All of it, as JSON.
    Json,
    /// The overview as a page of HTML.
    Html,
}

impl<'a> Text<'a> {
    fn number(self) -> (u32, &'a str) {
        match self {
            Text::List => (1, ""),
            Text::ListWithBodies => (2, ""),
            Text::Map => (3, ""),
            Text::Bodies => (4, ""),
            Text::Show(path) => (5, path),
            Text::Uses(path) => (6, path),
            Text::Check => (7, ""),
            Text::Report => (8, ""),
            Text::ReportAll => (9, ""),
            Text::Json => (10, ""),
            Text::Html => (11, ""),
        }
    }
}

impl<'t> Survey<'t> {
    /// Surveys tables, each whole with its header: the first is the DSDT, and SSDTs follow. `depth` is
    /// the greatest nesting of terms, 1 to 4096; what is deeper is a problem. No table is refused.
    ///
    /// # Errors
    /// An allocation failed, there is no table, or the depth is none.
    pub fn read(tables: &[&'t [u8]], depth: u32) -> Result<Survey<'t>, Fault> {
        let mut survey = Survey {
            tables: raw::lend(tables)?,
            _tables: core::marker::PhantomData,
            depth,
            outcome: raw::SurveyOutcome::default(),
            entries: Vec::new(),
            targets: Vec::new(),
            literals: Vec::new(),
            findings: Vec::new(),
            text: Vec::new(),
            parts: Vec::new(),
            bytes: Vec::new(),
        };
        loop {
            let mut arrays = survey.arrays();
            // SAFETY: each pointer and length is of a slice that nothing else reads or writes
            // during the call, and the library keeps none of them.
            let status = unsafe {
                let lent = survey.tables.as_ptr();
                raw::acpins_survey(
                    lent,
                    survey.tables.len(),
                    depth,
                    &mut arrays,
                    &mut survey.outcome,
                )
            };
            match status {
                raw::OK => return Ok(survey),
                raw::NO_ROOM => survey.make_room()?,
                _ => return Err(survey.fault(status)),
            }
        }
    }

    fn fault(&self, status: u32) -> Fault {
        match status {
            raw::CALL if self.tables.is_empty() => Fault::NoTable,
            raw::CALL => Fault::BadDepth,
            raw::BAD_PATH => Fault::BadPath,
            raw::NO_OBJECT => Fault::NoObject,
            _ => Fault::Memory,
        }
    }

    fn make_room(&mut self) -> Result<(), Fault> {
        let has = self.outcome;
        raw::resize(&mut self.entries, has.entries)?;
        raw::resize(&mut self.targets, has.targets)?;
        raw::resize(&mut self.literals, has.literals)?;
        raw::resize(&mut self.findings, has.problems.saturating_add(has.notes))?;
        raw::resize(&mut self.text, has.text)?;
        raw::resize(&mut self.parts, has.parts)?;
        raw::resize(&mut self.bytes, has.bytes)
    }

    fn arrays(&mut self) -> raw::SurveyArrays {
        raw::SurveyArrays {
            entries: self.entries.as_mut_ptr(),
            entry_room: self.entries.len(),
            targets: self.targets.as_mut_ptr(),
            target_room: self.targets.len(),
            literals: self.literals.as_mut_ptr(),
            literal_room: self.literals.len(),
            findings: self.findings.as_mut_ptr(),
            finding_room: self.findings.len(),
            text: self.text.as_mut_ptr(),
            text_room: self.text.len(),
            parts: self.parts.as_mut_ptr(),
            part_room: self.parts.len(),
            bytes: self.bytes.as_mut_ptr(),
            byte_room: self.bytes.len(),
        }
    }

    /// All entries, in the order of their paths.
    pub fn entries(&self) -> impl ExactSizeIterator<Item = Entry<'_>> + DoubleEndedIterator {
        (0..self.entries.len()).map(move |place| Entry {
            survey: self,
            place,
        })
    }

    /// The entries at a path, as `\_SB_.PCI0` or `\_SB.PCI0`.
    pub fn at<'s>(&'s self, path: &str) -> impl Iterator<Item = Entry<'s>> {
        let order =
            |it: &raw::Entry| compare(self.path_of(it).as_str().as_bytes(), path.as_bytes());
        let first = self
            .entries
            .partition_point(|it| order(it) == Ordering::Less);
        let count = self.entries[first..].partition_point(|it| order(it) == Ordering::Equal);
        (first..first + count).map(move |place| Entry {
            survey: self,
            place,
        })
    }

    /// What is lost or refused in the tables, in the order of their places.
    pub fn problems(&self) -> impl Iterator<Item = Finding<'_>> {
        self.findings(0)
    }

    /// What is noticed in them.
    pub fn notes(&self) -> impl Iterator<Item = Finding<'_>> {
        self.findings(1)
    }

    fn findings(&self, level: u64) -> impl Iterator<Item = Finding<'_>> {
        let of_level = move |it: &&raw::Finding| it.level == level;
        self.findings.iter().filter(of_level).map(|record| Finding {
            survey: self,
            record,
        })
    }

    /// A text of the tables.
    ///
    /// # Errors
    /// The path of [`Text::Show`] or [`Text::Uses`] is none, or no object may be there; an allocation
    /// failed.
    pub fn text(&self, what: Text<'_>) -> Result<String, Fault> {
        let (number, path) = what.number();
        let mut text = Vec::new();
        let mut outcome = raw::SurveyOutcome::default();
        loop {
            // SAFETY: as in `read`.
            let status = unsafe {
                raw::acpins_survey_text(
                    self.tables.as_ptr(),
                    self.tables.len(),
                    self.depth,
                    number,
                    path.as_ptr(),
                    path.len(),
                    text.as_mut_ptr(),
                    text.len(),
                    &mut outcome,
                )
            };
            match status {
                raw::OK => {
                    text.truncate(outcome.text as usize);
                    return Ok(String::from_utf8(text).unwrap_or_default());
                }
                raw::NO_ROOM => raw::resize(&mut text, outcome.text)?,
                _ => return Err(self.fault(status)),
            }
        }
    }

    fn text_at(&self, begin: u64, length: u64) -> &str {
        let end = begin.saturating_add(length) as usize;
        let bytes = self.text.get(begin as usize..end).unwrap_or(&[]);
        core::str::from_utf8(bytes).unwrap_or("")
    }

    fn path_of(&self, entry: &raw::Entry) -> Path<'_> {
        Path(self.text_at(entry.line, entry.path_length))
    }

    pub(crate) fn part(&self, place: u64) -> Option<&raw::Part> {
        self.parts.get(usize::try_from(place).ok()?)
    }

    pub(crate) fn bytes_of(&self, part: &raw::Part) -> &[u8] {
        let end = part.byte.saturating_add(part.bytes) as usize;
        self.bytes.get(part.byte as usize..end).unwrap_or(&[])
    }
}

impl fmt::Debug for Survey<'_> {
    fn fmt(&self, f: &mut fmt::Formatter<'_>) -> fmt::Result {
        f.debug_list().entries(self.entries()).finish()
    }
}

/// What one term may declare.
#[derive(Clone, Copy)]
pub struct Entry<'s> {
    survey: &'s Survey<'s>,
    place: usize,
}

impl<'s> Entry<'s> {
    fn record(self) -> &'s raw::Entry {
        &self.survey.entries[self.place]
    }

    /// Its place among the entries, from 0.
    pub fn place(self) -> usize {
        self.place
    }

    /// Its path.
    pub fn path(self) -> Path<'s> {
        self.survey.path_of(self.record())
    }

    /// Its line of the listing, without the line end.
    pub fn line(self) -> &'s str {
        let record = self.record();
        let line = self.survey.text_at(record.line, record.line_length);
        line.strip_suffix('\n').unwrap_or(line)
    }

    /// What it is, as its line has it: `Device`, `OperationRegion`.
    pub fn kind_name(self) -> &'s str {
        let record = self.record();
        let line = self
            .line()
            .get(record.path_length as usize + 1..)
            .unwrap_or("");
        line.split([' ', '\n']).next().unwrap_or("")
    }

    /// Whether it exists in every run.
    pub fn is_certain(self) -> bool {
        self.record().condition == raw::NONE
    }

    /// The literals of its condition, all of which have to hold.
    pub fn condition(self) -> Vec<Literal<'s>> {
        let (mut found, mut next) = (Vec::new(), self.record().condition);
        while let Some(record) = usize::try_from(next)
            .ok()
            .and_then(|it| self.survey.literals.get(it))
        {
            next = record.before;
            found.push(Literal {
                survey: self.survey,
                record,
            });
        }
        found.reverse();
        found
    }

    /// Of a Name its data.
    pub fn value(self) -> Option<Value<'s>> {
        Value::at(self.survey, self.record().part)
    }

    /// Of a region its space, and its offset and length in bytes, where these are constants.
    pub fn region(self) -> Option<(u8, Option<u64>, Option<u64>)> {
        let record = self.record();
        let [space, offset_form, offset, length_form, length, _] = record.numbers;
        let constant = |form, value| Constant::of(raw::Constant { form, value }).value();
        let known =
            |bit: u64, found: Option<u64>| found.filter(|_| record.is_computed >> bit & 1 == 0);
        let (offset, length) = (constant(offset_form, offset), constant(length_form, length));
        (record.kind == 9).then(|| (space as u8, known(1, offset), known(3, length)))
    }

    /// The first entry right below it with a name of four characters, as `_HID`.
    pub fn below(self, name: &str) -> Option<Entry<'s>> {
        let path = self.path();
        let is_below =
            |it: &Entry<'s>| it.path().parent() == Some(path) && it.path().name() == Some(name);
        let rest = self.survey.entries().skip(self.place + 1);
        rest.take_while(|it| it.path().as_str().starts_with(path.as_str()))
            .find(is_below)
    }

    /// The entries at the paths that its links may find.
    pub fn targets(self) -> impl Iterator<Item = Entry<'s>> {
        let record = self.record();
        let all = record.target as usize..record.target.saturating_add(record.targets) as usize;
        let targets = self.survey.targets.get(all).unwrap_or(&[]);
        targets.iter().map(move |it| Entry {
            survey: self.survey,
            place: it.entry as usize,
        })
    }

    /// Where the body of a method stands; none of any other entry.
    pub fn code(self) -> Option<Code> {
        let record = self.record();
        (record.kind == 8 && record.table != raw::NONE).then_some(Code {
            table: record.table as usize,
            offset: record.code_place as usize,
            length: record.code_length as usize,
        })
    }
}

impl fmt::Debug for Entry<'_> {
    fn fmt(&self, f: &mut fmt::Formatter<'_>) -> fmt::Result {
        f.write_str(self.line())
    }
}

/// What a literal of a condition says (`docs/SURVEY.md`).
#[derive(Clone, Copy, Debug, PartialEq, Eq, Hash)]
#[non_exhaustive]
pub enum LiteralKind {
    /// An If takes its first branch.
    If,
    /// It doesn't.
    Not,
    /// A round of a While is begun.
    While,
    /// A Return, Break or Continue doesn't stop control.
    Past,
    /// A scope object is at a path.
    Has,
    /// Nothing is at a path.
    No,
    /// A name is found.
    Needs,
}

/// A literal of a condition.
#[derive(Clone, Copy)]
pub struct Literal<'s> {
    survey: &'s Survey<'s>,
    record: &'s raw::Literal,
}

impl<'s> Literal<'s> {
    /// What it says.
    pub fn kind(self) -> LiteralKind {
        match self.record.kind {
            0 => LiteralKind::If,
            1 => LiteralKind::Not,
            2 => LiteralKind::While,
            3 => LiteralKind::Past,
            4 => LiteralKind::Has,
            5 => LiteralKind::No,
            _ => LiteralKind::Needs,
        }
    }

    /// Its text: `if(OSYS)`.
    pub fn text(self) -> &'s str {
        self.survey
            .text_at(self.record.text, self.record.text_length)
    }

    /// Where the If, the While, the stop or the term that asks stands: the table, and bytes from its
    /// first.
    pub fn site(self) -> (usize, usize) {
        (self.record.table as usize, self.record.place as usize)
    }
}

/// A problem or a note.
#[derive(Clone, Copy)]
pub struct Finding<'s> {
    survey: &'s Survey<'s>,
    record: &'s raw::Finding,
}

impl<'s> Finding<'s> {
    /// Its reason: a letter and a number, as `('K', 6)`.
    pub fn reason(self) -> (char, u8) {
        (
            (self.record.reason >> 8) as u8 as char,
            self.record.reason as u8,
        )
    }

    /// Where it stands: the table, and bytes from its first.
    pub fn site(self) -> (usize, usize) {
        (self.record.table as usize, self.record.place as usize)
    }

    /// The bytes that are lost, from the table's first.
    pub fn lost(self) -> core::ops::Range<usize> {
        self.record.lost_from as usize..self.record.lost_to as usize
    }

    /// Its line of the listing, without the line end.
    pub fn line(self) -> &'s str {
        let line = self
            .survey
            .text_at(self.record.line, self.record.line_length);
        line.strip_suffix('\n').unwrap_or(line)
    }
}

impl fmt::Debug for Finding<'_> {
    fn fmt(&self, f: &mut fmt::Formatter<'_>) -> fmt::Result {
        f.write_str(self.line())
    }
}
