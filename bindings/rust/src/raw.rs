//! The records and calls of `bindings/c/acpins.h`, ABI 2, as they stand there.
use crate::fault::Fault;
use alloc::vec::Vec;

pub const ABI: u32 = 2;
pub const NONE: u64 = u64::MAX;

pub const OK: u32 = 0;
pub const REFUSED: u32 = 1;
pub const NO_ROOM: u32 = 3;
pub const CALL: u32 = 4;
pub const NO_METHOD: u32 = 5;
pub const BAD_PATH: u32 = 6;
pub const NO_OBJECT: u32 = 7;

#[repr(C)]
pub struct Table {
    bytes: *const u8,
    length: usize,
}

#[repr(C)]
#[derive(Clone, Copy, Default)]
pub struct Outcome {
    pub objects: u64,
    pub targets: u64,
    pub text: u64,
    pub parts: u64,
    pub bytes: u64,
    pub table: u64,
    pub reason: u64,
    pub place: u64,
}

#[repr(C)]
#[derive(Clone, Copy, Default)]
pub struct Constant {
    pub form: u64,
    pub value: u64,
}

#[repr(C)]
#[derive(Clone, Copy, Default)]
pub struct Object {
    pub kind: u64,
    pub line: u64,
    pub line_length: u64,
    pub path_length: u64,
    pub target: u64,
    pub targets: u64,
    pub numbers: [u64; 6],
    pub parent: u64,
    pub below: u64,
    pub part: u64,
    pub code_table: u64,
    pub code_place: u64,
    pub code_length: u64,
}

#[repr(C)]
#[derive(Clone, Copy, Default)]
pub struct Part {
    pub kind: u64,
    pub constant: Constant,
    pub byte: u64,
    pub bytes: u64,
    pub behind: u64,
}

#[repr(C)]
pub struct Arrays {
    pub objects: *mut Object,
    pub object_room: usize,
    pub targets: *mut u64,
    pub target_room: usize,
    pub text: *mut u8,
    pub text_room: usize,
    pub parts: *mut Part,
    pub part_room: usize,
    pub bytes: *mut u8,
    pub byte_room: usize,
}

#[repr(C)]
#[derive(Clone, Copy, Default)]
pub struct Body {
    pub is_read: u64,
    pub reason: u64,
    pub place: u64,
}

#[repr(C)]
#[derive(Clone, Copy, Default)]
pub struct Verdict {
    pub order: u64,
    pub first: u64,
    pub second: u64,
    pub reason: u64,
    pub place: u64,
    pub path_length: u64,
    pub satisfied: u64,
}

#[repr(C)]
#[derive(Clone, Copy, Default)]
pub struct Satisfied {
    pub user: u64,
    pub definer: u64,
    pub path: u64,
    pub path_length: u64,
}

#[repr(C)]
#[derive(Clone, Copy, Default)]
pub struct SurveyOutcome {
    pub tables: u64,
    pub entries: u64,
    pub literals: u64,
    pub targets: u64,
    pub parts: u64,
    pub problems: u64,
    pub notes: u64,
    pub text: u64,
    pub bytes: u64,
    pub is_faulty: u64,
}

#[repr(C)]
#[derive(Clone, Copy, Default)]
pub struct Entry {
    pub kind: u64,
    pub line: u64,
    pub line_length: u64,
    pub path_length: u64,
    pub target: u64,
    pub targets: u64,
    pub numbers: [u64; 6],
    pub is_computed: u64,
    pub parent: u64,
    pub part: u64,
    pub condition: u64,
    pub table: u64,
    pub place: u64,
    pub length: u64,
    pub code_place: u64,
    pub code_length: u64,
}

#[repr(C)]
#[derive(Clone, Copy, Default)]
pub struct Target {
    pub entry: u64,
    pub link: u64,
    pub is_certain: u64,
}

#[repr(C)]
#[derive(Clone, Copy, Default)]
pub struct Literal {
    pub kind: u64,
    pub before: u64,
    pub table: u64,
    pub place: u64,
    pub text: u64,
    pub text_length: u64,
}

#[repr(C)]
#[derive(Clone, Copy, Default)]
pub struct Finding {
    pub reason: u64,
    pub level: u64,
    pub table: u64,
    pub place: u64,
    pub lost_from: u64,
    pub lost_to: u64,
    pub line: u64,
    pub line_length: u64,
}

#[repr(C)]
pub struct SurveyArrays {
    pub entries: *mut Entry,
    pub entry_room: usize,
    pub targets: *mut Target,
    pub target_room: usize,
    pub literals: *mut Literal,
    pub literal_room: usize,
    pub findings: *mut Finding,
    pub finding_room: usize,
    pub text: *mut u8,
    pub text_room: usize,
    pub parts: *mut Part,
    pub part_room: usize,
    pub bytes: *mut u8,
    pub byte_room: usize,
}

extern "C" {
    pub fn acpins_abi() -> u32;

    pub fn acpins_survey(
        tables: *const Table,
        table_count: usize,
        depth: u32,
        arrays: *mut SurveyArrays,
        outcome: *mut SurveyOutcome,
    ) -> u32;

    pub fn acpins_survey_text(
        tables: *const Table,
        table_count: usize,
        depth: u32,
        what: u32,
        path: *const u8,
        path_length: usize,
        text: *mut u8,
        text_room: usize,
        outcome: *mut SurveyOutcome,
    ) -> u32;

    pub fn acpins_load(
        tables: *const Table,
        table_count: usize,
        depth: u32,
        arrays: *mut Arrays,
        outcome: *mut Outcome,
    ) -> u32;

    pub fn acpins_body(
        tables: *const Table,
        table_count: usize,
        depth: u32,
        path: *const u8,
        path_length: usize,
        text: *mut u8,
        text_room: usize,
        body: *mut Body,
        outcome: *mut Outcome,
    ) -> u32;

    pub fn acpins_check(
        tables: *const Table,
        table_count: usize,
        depth: u32,
        satisfied: *mut Satisfied,
        satisfied_room: usize,
        text: *mut u8,
        text_room: usize,
        verdict: *mut Verdict,
        outcome: *mut Outcome,
    ) -> u32;

    pub fn acpins_rewrite(
        tables: *const Table,
        table_count: usize,
        depth: u32,
        bytes: *mut u8,
        byte_room: usize,
        ends: *mut u64,
        end_room: usize,
        outcome: *mut Outcome,
    ) -> u32;
}

/// The tables as the library takes them, for one whose records are those of this file.
pub fn lend(tables: &[&[u8]]) -> Result<Vec<Table>, Fault> {
    // SAFETY: the call takes nothing and changes nothing.
    let found = unsafe { acpins_abi() };
    if found != ABI {
        return Err(Fault::Abi(found));
    }
    let mut lent = Vec::new();
    lent.try_reserve_exact(tables.len())?;
    lent.extend(tables.iter().map(|table| Table {
        bytes: table.as_ptr(),
        length: table.len(),
    }));
    Ok(lent)
}

/// Gives a list so many elements.
pub fn resize<T: Clone + Default>(list: &mut Vec<T>, count: u64) -> Result<(), Fault> {
    let count = usize::try_from(count).map_err(|_| Fault::Memory)?;
    list.try_reserve_exact(count.saturating_sub(list.len()))?;
    list.resize(count, T::default());
    Ok(())
}
