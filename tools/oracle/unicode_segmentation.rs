//! A stand-in for the crate of this name, exact for ASCII: each byte is a grapheme, but CR LF is
//! one. Any other text is a panic.

pub trait UnicodeSegmentation {
    fn grapheme_indices(&self, extended: bool) -> GraphemeIndices<'_>;
    fn graphemes(&self, extended: bool) -> impl Iterator<Item = &str>;
}

impl UnicodeSegmentation for str {
    fn grapheme_indices(&self, extended: bool) -> GraphemeIndices<'_> {
        assert!(extended, "only extended graphemes are here");
        GraphemeIndices { text: self, at: 0 }
    }

    fn graphemes(&self, extended: bool) -> impl Iterator<Item = &str> {
        self.grapheme_indices(extended)
            .map(|(_, grapheme)| grapheme)
    }
}

pub struct GraphemeIndices<'a> {
    text: &'a str,
    at: usize,
}

impl<'a> Iterator for GraphemeIndices<'a> {
    type Item = (usize, &'a str);

    fn next(&mut self) -> Option<Self::Item> {
        let at = self.at;
        let len = match self.text.as_bytes()[at..] {
            [] => return None,
            [b'\r', b'\n', ..] => 2,
            [byte, ..] => {
                assert!(byte.is_ascii(), "only ASCII is segmented here");
                1
            }
        };
        self.at += len;
        Some((at, &self.text[at..at + len]))
    }
}
