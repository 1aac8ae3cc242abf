use std::fmt;
use std::hash::{Hash, Hasher};
use std::ops::{Deref, Range};
use std::sync::Arc;

/// A part of a text, owned
///
/// It derefs to `str`. A part of up to seven bytes, as most are, takes no memory of its own; the
/// longer ones of a tree share one copy of the text.
#[derive(Clone)]
pub struct Part(Held);

#[derive(Clone)]
enum Held {
    /// The length, then so many bytes.
    Short([u8; 8]),
    /// The shared text, with the start and the end.
    Long(Arc<Box<str>>, u32, u32),
}

/// What stands in place is no more than keeps a part as small as a `&str`.
const _: () = assert!(size_of::<Part>() == size_of::<&str>());

/// Makes the parts of a text that a tree holds.
pub(crate) trait Parts<T> {
    /// The part with this span, if the text has it.
    fn part(&mut self, span: Range<usize>) -> Option<T>;
}

impl<T, F: FnMut(Range<usize>) -> Option<T>> Parts<T> for F {
    #[inline(always)]
    fn part(&mut self, span: Range<usize>) -> Option<T> {
        self(span)
    }
}

/// Makes owned parts of a text. The longer ones share a copy of it, which is made for the first.
pub(crate) struct OwnedParts<'a> {
    text: &'a str,
    copy: Option<Arc<Box<str>>>,
}

impl<'a> OwnedParts<'a> {
    pub(crate) fn of(text: &'a str) -> Self {
        OwnedParts { text, copy: None }
    }

    #[inline(never)]
    fn long(&mut self, span: Range<usize>) -> Option<Part> {
        let copy = self.copy.get_or_insert_with(|| Arc::new(self.text.into()));
        let [start, end] = [span.start, span.end].map(u32::try_from);
        Some(Part(Held::Long(Arc::clone(copy), start.ok()?, end.ok()?)))
    }
}

impl Parts<Part> for OwnedParts<'_> {
    #[inline(always)]
    fn part(&mut self, span: Range<usize>) -> Option<Part> {
        let part = self.text.get(span.clone())?.as_bytes();
        if part.len() < 8 {
            Some(Part(Held::Short(short(part).to_le_bytes())))
        } else {
            self.long(span)
        }
    }
}

/// The length and then the bytes, as one word, which is quicker than put together in memory.
#[inline(never)]
fn short(part: &[u8]) -> u64 {
    let add = |word: u64, &byte: &u8| word << 8 | u64::from(byte);
    add(part.iter().rfold(0, add), &(part.len() as u8))
}

impl Deref for Part {
    type Target = str;

    fn deref(&self) -> &str {
        match &self.0 {
            Held::Short([len, bytes @ ..]) => {
                str::from_utf8(&bytes[..usize::from(*len)]).expect("bytes of a str")
            }
            Held::Long(text, start, end) => &text[*start as usize..*end as usize],
        }
    }
}

impl AsRef<str> for Part {
    fn as_ref(&self) -> &str {
        self
    }
}

impl fmt::Debug for Part {
    fn fmt(&self, f: &mut fmt::Formatter<'_>) -> fmt::Result {
        fmt::Debug::fmt(&**self, f)
    }
}

impl fmt::Display for Part {
    fn fmt(&self, f: &mut fmt::Formatter<'_>) -> fmt::Result {
        fmt::Display::fmt(&**self, f)
    }
}

impl PartialEq for Part {
    fn eq(&self, other: &Part) -> bool {
        **self == **other
    }
}

impl Eq for Part {}

impl PartialEq<str> for Part {
    fn eq(&self, other: &str) -> bool {
        **self == *other
    }
}

impl PartialEq<&str> for Part {
    fn eq(&self, other: &&str) -> bool {
        **self == **other
    }
}

impl Hash for Part {
    fn hash<H: Hasher>(&self, state: &mut H) {
        (**self).hash(state);
    }
}
