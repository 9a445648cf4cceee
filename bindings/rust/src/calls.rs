//! What the library tells of tables besides their objects.
use crate::fault::{owned, BodyReason, Fault, Reason};
use crate::raw;
use alloc::string::String;
use alloc::vec::Vec;

/// The body of a method.
#[derive(Clone, Debug, PartialEq, Eq)]
pub enum Body {
    /// Its statements, as `acpins show` prints them: a line each.
    Read(String),
    /// It can't be read.
    Opaque {
        /// Its bytes.
        bytes: Vec<u8>,
        /// Why.
        reason: BodyReason,
        /// Where, in bytes from the body's first byte.
        place: u64,
    },
}

/// The body of the method that a table declares at a path, as `\_SB_.PCI0._STA` or
/// `\_SB.PCI0._STA`.
///
/// # Errors
/// The text spells no path, or no table declares a method there; else those of
/// [`Machine::load`](crate::Machine::load).
pub fn body(tables: &[&[u8]], path: &str, depth: u32) -> Result<Body, Fault> {
    let lent = raw::lend(tables)?;
    let mut text = Vec::new();
    let mut body = raw::Body::default();
    let mut outcome = raw::Outcome::default();
    loop {
        // SAFETY: each pointer and length is of a slice that nothing else reads or writes during
        // the call, and the library keeps none.
        let status = unsafe {
            raw::acpins_body(
                lent.as_ptr(),
                lent.len(),
                depth,
                path.as_ptr(),
                path.len(),
                text.as_mut_ptr(),
                text.len(),
                &mut body,
                &mut outcome,
            )
        };
        match status {
            raw::OK if body.is_read != 0 => return Ok(Body::Read(owned(&text)?)),
            raw::OK => {
                return Ok(Body::Opaque {
                    bytes: text,
                    reason: BodyReason::of(body.reason as u8),
                    place: body.place,
                })
            }
            raw::NO_ROOM | raw::REFUSED if outcome.text as usize > text.len() => {
                raw::resize(&mut text, outcome.text)?
            }
            _ => return Err(Fault::of(status, lent.len(), &outcome, &text)),
        }
    }
}

/// An External of one table that another one satisfies: a method of as many arguments stands at its
/// path.
#[derive(Clone, Debug, PartialEq, Eq)]
pub struct Satisfied {
    /// The table with the External, from 0.
    pub user: usize,
    /// The SSDT that declares the method, from 1.
    pub definer: usize,
    /// The method's path.
    pub path: String,
}

/// Whether SSDTs may be loaded in any order over the DSDT, and else the first reason why perhaps
/// not. SSDTs are numbered from 1.
#[derive(Clone, Debug, PartialEq, Eq)]
#[non_exhaustive]
pub enum Verdict {
    /// Every order gives the same objects, links and bodies.
    Commute {
        /// The Externals that are satisfied.
        satisfied: Vec<Satisfied>,
    },
    /// An SSDT doesn't load over the DSDT alone.
    NotAlone {
        /// Which.
        ssdt: usize,
        /// Why.
        reason: Reason,
    },
    /// Two SSDTs declare one path.
    Same {
        /// One.
        first: usize,
        /// The other.
        second: usize,
        /// The path.
        path: String,
    },
    /// The load of one SSDT missed a path that another one declares.
    Missed {
        /// The one that missed it.
        searcher: usize,
        /// The one that declares it.
        definer: usize,
        /// The path.
        path: String,
    },
}

/// Whether the SSDTs may be loaded in any order over the DSDT.
///
/// # Errors
/// Those of [`Machine::load`](crate::Machine::load). A refusal is about the DSDT, table 0: an SSDT that
/// can't be loaded is a verdict.
pub fn check(tables: &[&[u8]], depth: u32) -> Result<Verdict, Fault> {
    let lent = raw::lend(tables)?;
    let mut satisfied: Vec<raw::Satisfied> = Vec::new();
    let mut text = Vec::new();
    let mut verdict = raw::Verdict::default();
    let mut outcome = raw::Outcome::default();
    loop {
        // SAFETY: as in `body`.
        let status = unsafe {
            raw::acpins_check(
                lent.as_ptr(),
                lent.len(),
                depth,
                satisfied.as_mut_ptr(),
                satisfied.len(),
                text.as_mut_ptr(),
                text.len(),
                &mut verdict,
                &mut outcome,
            )
        };
        match status {
            raw::OK => return verdict_of(&verdict, &satisfied, &text),
            raw::NO_ROOM | raw::REFUSED
                if outcome.text as usize > text.len()
                    || verdict.satisfied as usize > satisfied.len() =>
            {
                raw::resize(&mut satisfied, verdict.satisfied)?;
                raw::resize(&mut text, outcome.text)?
            }
            _ => return Err(Fault::of(status, lent.len(), &outcome, &text)),
        }
    }
}

/// The bytes of a text from one place on.
fn piece(text: &[u8], begin: u64, length: u64) -> &[u8] {
    let end = begin.saturating_add(length) as usize;
    text.get(begin as usize..end).unwrap_or(&[])
}

fn verdict_of(
    verdict: &raw::Verdict,
    satisfied: &[raw::Satisfied],
    text: &[u8],
) -> Result<Verdict, Fault> {
    let path = piece(text, 0, verdict.path_length);
    let (first, second) = (verdict.first as usize, verdict.second as usize);
    Ok(match verdict.order {
        0 => Verdict::Commute {
            satisfied: satisfied_of(satisfied, text)?,
        },
        1 => Verdict::NotAlone {
            ssdt: first,
            reason: Reason::of(verdict.reason, verdict.place, path)?,
        },
        2 => Verdict::Same {
            first,
            second,
            path: owned(path)?,
        },
        _ => Verdict::Missed {
            searcher: first,
            definer: second,
            path: owned(path)?,
        },
    })
}

fn satisfied_of(satisfied: &[raw::Satisfied], text: &[u8]) -> Result<Vec<Satisfied>, Fault> {
    let mut list = Vec::new();
    list.try_reserve_exact(satisfied.len())?;
    for it in satisfied {
        list.push(Satisfied {
            user: it.user as usize,
            definer: it.definer as usize,
            path: owned(piece(text, it.path, it.path_length))?,
        });
    }
    Ok(list)
}

/// The tables in their shortest spelling: they load to the same machine, and none is longer than it
/// was.
///
/// # Errors
/// Those of [`Machine::load`](crate::Machine::load).
pub fn rewrite(tables: &[&[u8]], depth: u32) -> Result<Vec<Vec<u8>>, Fault> {
    let lent = raw::lend(tables)?;
    let mut bytes = Vec::new();
    let mut ends: Vec<u64> = Vec::new();
    let mut outcome = raw::Outcome::default();
    raw::resize(&mut ends, lent.len() as u64)?;
    loop {
        // SAFETY: as in `body`.
        let status = unsafe {
            raw::acpins_rewrite(
                lent.as_ptr(),
                lent.len(),
                depth,
                bytes.as_mut_ptr(),
                bytes.len(),
                ends.as_mut_ptr(),
                ends.len(),
                &mut outcome,
            )
        };
        match status {
            raw::OK => return tables_of(&bytes, &ends),
            raw::NO_ROOM if outcome.bytes as usize > bytes.len() => {
                raw::resize(&mut bytes, outcome.bytes)?
            }
            raw::REFUSED if outcome.text as usize > bytes.len() => {
                raw::resize(&mut bytes, outcome.text)?
            }
            _ => return Err(Fault::of(status, lent.len(), &outcome, &bytes)),
        }
    }
}

fn tables_of(bytes: &[u8], ends: &[u64]) -> Result<Vec<Vec<u8>>, Fault> {
    let mut tables = Vec::new();
    tables.try_reserve_exact(ends.len())?;
    let mut begin = 0;
    for end in ends {
        let own = piece(bytes, begin, end.saturating_sub(begin));
        let mut table = Vec::new();
        table.try_reserve_exact(own.len())?;
        table.extend_from_slice(own);
        tables.push(table);
        begin = *end;
    }
    Ok(tables)
}
