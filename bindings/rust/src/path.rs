//! Paths of the namespace.
use core::cmp::Ordering;
use core::fmt;

/// The path of an object: `\`, and segments of four characters joined by `.`, as `\_SB_.PCI0`.
/// Paths are ordered as their objects are: by the segments, from the root.
#[derive(Clone, Copy, PartialEq, Eq, PartialOrd, Ord, Hash)]
pub struct Path<'a>(pub(crate) &'a str);

impl<'a> Path<'a> {
    /// Its text.
    pub fn as_str(self) -> &'a str {
        self.0
    }

    /// Whether it is the root's.
    pub fn is_root(self) -> bool {
        self.0.len() <= 1
    }

    /// Its segments, from the root.
    pub fn segments(self) -> Segments<'a> {
        Segments(self.0.get(1..).unwrap_or(""))
    }

    /// Its last segment; none of the root.
    pub fn name(self) -> Option<&'a str> {
        self.segments().last()
    }

    /// The path without its last segment; none of the root.
    pub fn parent(self) -> Option<Path<'a>> {
        if self.is_root() {
            return None;
        }
        let end = self.0.rfind('.').unwrap_or(1);
        Some(Path(&self.0[..end]))
    }
}

impl fmt::Display for Path<'_> {
    fn fmt(&self, f: &mut fmt::Formatter<'_>) -> fmt::Result {
        f.pad(self.0)
    }
}

impl fmt::Debug for Path<'_> {
    fn fmt(&self, f: &mut fmt::Formatter<'_>) -> fmt::Result {
        f.write_str(self.0)
    }
}

impl AsRef<str> for Path<'_> {
    fn as_ref(&self) -> &str {
        self.0
    }
}

impl PartialEq<str> for Path<'_> {
    fn eq(&self, other: &str) -> bool {
        self.0 == other
    }
}

impl PartialEq<&str> for Path<'_> {
    fn eq(&self, other: &&str) -> bool {
        self.0 == *other
    }
}

/// The segments of a path.
#[derive(Clone, Debug)]
pub struct Segments<'a>(&'a str);

impl<'a> Iterator for Segments<'a> {
    type Item = &'a str;

    fn next(&mut self) -> Option<&'a str> {
        if self.0.is_empty() {
            return None;
        }
        let (first, rest) = self.0.split_once('.').unwrap_or((self.0, ""));
        self.0 = rest;
        Some(first)
    }
}

/// How the whole path of an object compares with one that may have short segments, which are filled
/// with `_`. What spells no path is equal to none.
pub(crate) fn compare(whole: &[u8], path: &[u8]) -> Ordering {
    let mut rest = path.iter().copied().peekable();
    for (at, byte) in whole.iter().enumerate() {
        // Segments begin at 1, 6, 11, ..; the second to fourth character of one may be left out.
        let is_filled = at % 5 >= 2 && matches!(rest.peek(), None | Some(b'.'));
        let wanted = if is_filled { Some(b'_') } else { rest.next() };
        match Some(*byte).cmp(&wanted) {
            Ordering::Equal => {}
            order => return order,
        }
    }
    if rest.peek().is_some() {
        Ordering::Less
    } else {
        Ordering::Equal
    }
}

#[cfg(test)]
mod tests {
    use super::*;

    fn is_same(whole: &str, path: &str) -> bool {
        compare(whole.as_bytes(), path.as_bytes()) == Ordering::Equal
    }

    #[test]
    fn short_segments_are_filled() {
        assert!(is_same("\\", "\\"));
        assert!(is_same("\\_SB_.PCI0", "\\_SB.PCI0"));
        assert!(is_same("\\_SB_.A___.B___", "\\_SB.A.B"));
        assert!(is_same("\\____", "\\_"));
    }

    #[test]
    fn what_is_no_path_is_equal_to_none() {
        for path in [
            "",
            "\\.",
            "\\_SB.",
            "\\_SB..A",
            "_SB_",
            "\\_SB_PCI0",
            "\\_SB_X",
        ] {
            for whole in ["\\", "\\____", "\\_SB_", "\\_SB_.____", "\\_SB_.A___"] {
                assert!(!is_same(whole, path), "{whole} {path}");
            }
        }
    }

    #[test]
    fn paths_have_segments_and_parents() {
        let path = Path("\\_SB_.PCI0._ADR");
        assert!(path.segments().eq(["_SB_", "PCI0", "_ADR"]));
        assert_eq!(path.name(), Some("_ADR"));
        let above: alloc::vec::Vec<_> =
            core::iter::successors(Some(path), |it| it.parent()).collect();
        assert_eq!(above, ["\\_SB_.PCI0._ADR", "\\_SB_.PCI0", "\\_SB_", "\\"]);
        assert_eq!(Path("\\").name(), None);
    }
}
