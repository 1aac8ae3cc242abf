use crate::decode::decode_with;
use crate::part::{OwnedParts, Parts};
use crate::tree::Expression;
use crate::{Part, Refusal, Token, Tokenizer, calls};
use std::cell::Cell;
use std::ops::Range;

/// The longest text that is read, and the longest token list.
const LONGEST: usize = 4096;

/// A tree with what is answered beside it
#[derive(Debug, Clone, PartialEq, Eq)]
pub struct Reading<T = Part> {
    /// The tree
    pub tree: Expression<T>,
    /// The number of tokens, those that are Space included
    pub tokens: usize,
    /// How many times the reading took a token
    pub takes: u64,
    /// Whether the root has no items
    pub blank: bool,
}

/// A call that reads a text and writes of it into the last of its buffers.
type Writes = fn(&[u8], &mut [u32], &mut [u32], &mut [u32], &mut [u8], &mut [u64]) -> u32;

/// The spans of an opener and its closer, in bytes of the text
pub type Pair = (Range<usize>, Range<usize>);

/// The buffers of a reading, kept from one to the next
///
/// They grow as the texts need it, to 0.6 MB at most, or 2.2 MB with prints, 0.8 MB with MathML. The functions of
/// this crate use one that each thread keeps; a `Reader` of your own says how long its buffers live.
///
/// ```
/// use asciimath::Reader;
///
/// let mut reader = Reader::new();
/// for text in ["x^2/3", "[[1,2],[3,4]]"] {
///     assert_eq!(reader.read_borrowed(text)?.tree.len(), 1);
/// }
/// # Ok::<(), asciimath::Refusal>(())
/// ```
#[derive(Debug, Default)]
pub struct Reader {
    table: Vec<u32>,
    work: Vec<u32>,
    tree: Vec<u32>,
    closers: Vec<u32>,
    out: Vec<u8>,
}

thread_local! {
    static OWN: Cell<Reader> = const { Cell::new(Reader::new()) };
}

impl Reader {
    /// A reader with no buffers yet
    #[must_use]
    pub const fn new() -> Self {
        Reader {
            table: Vec::new(),
            work: Vec::new(),
            tree: Vec::new(),
            closers: Vec::new(),
            out: Vec::new(),
        }
    }

    /// Calls with the thread's reader. It is taken out for so long: where the call comes back here,
    /// as by an iterator over tokens, it gets a new one.
    pub(crate) fn with_own<X>(call: impl FnOnce(&mut Reader) -> X) -> X {
        // a thread that ends has none any more
        let mut reader = OWN.try_with(Cell::take).unwrap_or_default();
        let answer = call(&mut reader);
        let _ = OWN.try_with(|own| own.set(reader));
        answer
    }

    /// The tree of a text, with the tokens, takes and blank
    ///
    /// # Errors
    /// As [`parse`](crate::parse).
    pub fn read(&mut self, text: &str) -> Result<Reading, Refusal> {
        let tokens = self.tokenize(text)?;
        self.read_table(text, tokens, OwnedParts::of(text))
    }

    /// The tree of a text that holds parts of it, as asciimath-parser's does
    ///
    /// # Errors
    /// As [`parse`](crate::parse).
    pub fn read_borrowed<'a>(&mut self, text: &'a str) -> Result<Reading<&'a str>, Refusal> {
        let tokens = self.tokenize(text)?;
        self.read_table(text, tokens, |span| text.get(span))
    }

    /// The tree of a token list, with the tokens, takes and blank
    ///
    /// # Errors
    /// As [`parse_tokens`](crate::parse_tokens).
    pub fn read_tokens<'a>(
        &mut self,
        text: &str,
        tokens: impl IntoIterator<Item = (&'a str, Token)>,
    ) -> Result<Reading, Refusal> {
        let tokens = self.list(text, tokens);
        self.read_table(text, tokens, OwnedParts::of(text))
    }

    /// The tree of a token list that holds parts of the text, as asciimath-parser's does
    ///
    /// # Errors
    /// As [`parse_tokens`](crate::parse_tokens).
    pub fn read_tokens_borrowed<'a, 'b>(
        &mut self,
        text: &'a str,
        tokens: impl IntoIterator<Item = (&'b str, Token)>,
    ) -> Result<Reading<&'a str>, Refusal> {
        let tokens = self.list(text, tokens);
        self.read_table(text, tokens, |span| text.get(span))
    }

    /// The tokens of a text, each with its part of the text
    ///
    /// # Errors
    /// As [`parse`](crate::parse).
    pub fn tokenizer<'a>(&mut self, text: &'a str) -> Result<Tokenizer<'a>, Refusal> {
        let tokens = self.tokenize(text)?;
        Ok(Tokenizer::of_table(text, self.tokens(tokens)))
    }

    /// For each token of a text other than Space, the place of its closer, if it has one
    ///
    /// # Errors
    /// As [`closers`](crate::closers).
    pub fn closers(&mut self, text: &str) -> Result<Vec<Option<usize>>, Refusal> {
        let (_, others) = self.pair(text)?;
        Ok(places(&self.closers[..others]))
    }

    /// For each token of a list other than Space, the place of its closer, if it has one
    ///
    /// # Errors
    /// As [`closers_tokens`](crate::closers_tokens).
    pub fn closers_tokens<'a>(
        &mut self,
        text: &str,
        tokens: impl IntoIterator<Item = (&'a str, Token)>,
    ) -> Result<Vec<Option<usize>>, Refusal> {
        let tokens = self.list(text, tokens);
        let others = self.others(tokens).count();
        let out = first(&mut self.closers, others);
        let (text, table) = (text.as_bytes(), &self.table);
        Refusal::of_code(calls::closers(text, table, tokens, out, &mut []))?;
        Ok(places(out))
    }

    /// The spans of each opener and its closer in a text, in the order of the openers
    ///
    /// # Errors
    /// As [`pairs`](crate::pairs).
    pub fn pairs(&mut self, text: &str) -> Result<Vec<Pair>, Refusal> {
        let (tokens, _) = self.pair(text)?;
        let spans: Vec<_> = self.others(tokens).map(span).collect();
        // the number of them, for none, is no place among them
        let pair = |(opener, &closer): (&Range<usize>, &u32)| {
            Some((opener.clone(), spans.get(closer as usize)?.clone()))
        };
        Ok(spans.iter().zip(&self.closers).filter_map(pair).collect())
    }

    /// The printed tree of a text, a line for each node
    ///
    /// # Errors
    /// As [`parse`](crate::parse).
    pub fn print(&mut self, text: &str) -> Result<String, Refusal> {
        self.write(text, calls::print, print_bytes)
    }

    /// The MathML of a text: one `math` element
    ///
    /// # Errors
    /// As [`mathml`](crate::mathml).
    pub fn mathml(&mut self, text: &str) -> Result<String, Refusal> {
        self.write(text, calls::mathml, |_| mathml_bytes(text.len()))
    }

    /// What a call writes of a text, in at most so many bytes for so many tokens other than Space.
    fn write(
        &mut self,
        text: &str,
        call: Writes,
        bytes: impl FnOnce(usize) -> usize,
    ) -> Result<String, Refusal> {
        let tokens = self.tokenize(text)?;
        let others = self.others(tokens).count();
        let out = first(&mut self.out, bytes(others));
        let mut answer = [0];
        Refusal::of_code(call(
            text.as_bytes(),
            first(&mut self.table, 3 * tokens),
            first(&mut self.work, work_words(others)),
            first(&mut self.tree, tree_words(others)),
            out,
            &mut answer,
        ))?;
        let written = &out[..answer[0] as usize];
        Ok(str::from_utf8(written).expect("it is UTF-8").into())
    }

    /// Writes the text's tokens into the table. How many there are.
    fn tokenize(&mut self, text: &str) -> Result<usize, Refusal> {
        // a text has at most as many tokens as bytes
        let table = first(&mut self.table, 3 * text.len().min(LONGEST));
        let mut answer = [0];
        Refusal::of_code(calls::tokens(text.as_bytes(), table, &mut answer))?;
        Ok(answer[0] as usize)
    }

    /// Writes a token list into the table. How many there are.
    fn list<'a>(
        &mut self,
        text: &str,
        tokens: impl IntoIterator<Item = (&'a str, Token)>,
    ) -> usize {
        self.table.clear();
        // one token too many is enough to be refused
        for (part, token) in tokens.into_iter().take(LONGEST + 1) {
            let len = u32::try_from(part.len()).unwrap_or(u32::MAX);
            self.table
                .extend([start_of(text, part), len, token.number()]);
        }
        self.table.len() / 3
    }

    /// The first tokens of the table.
    fn tokens(&self, count: usize) -> &[[u32; 3]] {
        &self.table.as_chunks().0[..count]
    }

    /// Those of the first tokens of the table that are other than Space.
    fn others(&self, tokens: usize) -> impl Iterator<Item = &[u32; 3]> {
        let space = Token::Space.number();
        let tokens = self.tokens(tokens).iter();
        tokens.filter(move |&&[_, _, kind]| kind != space)
    }

    /// Writes the text's tokens into the table, and their closers. How many tokens there are, and how
    /// many of them are other than Space.
    fn pair(&mut self, text: &str) -> Result<(usize, usize), Refusal> {
        // a text has at most as many tokens as bytes
        let most = text.len().min(LONGEST);
        let mut answer = [0; 2];
        Refusal::of_code(calls::closers_text(
            text.as_bytes(),
            first(&mut self.table, 3 * most),
            first(&mut self.closers, most),
            &mut answer,
        ))?;
        let [tokens, others] = answer;
        Ok((tokens as usize, others as usize))
    }

    /// The reading of the first tokens of the table, with the parts of the text that `parts` makes.
    /// That of a text is by definition that of its tokens; so read, it needs no guess at the buffers.
    fn read_table<T>(
        &mut self,
        text: &str,
        tokens: usize,
        parts: impl Parts<T>,
    ) -> Result<Reading<T>, Refusal> {
        // just the words that are needed: those behind a tree would be cleared too
        let others = self.others(tokens).count();
        let tree = first(&mut self.tree, tree_words(others));
        let mut answer = [0; 3];
        Refusal::of_code(calls::parse_tokens(
            text.as_bytes(),
            &self.table,
            tokens,
            first(&mut self.work, work_words(others)),
            tree,
            &mut answer,
        ))?;
        let [takes, items, blank] = answer;
        let decoded = decode_with(tree, items as usize, parts);
        let (tree, _) = decoded.expect("the library's words are a tree");
        Ok(Reading {
            tree,
            tokens,
            takes,
            blank: blank != 0,
        })
    }
}

/// The first so many words of a buffer, which grows if it has fewer.
fn first<T: Clone + Default>(buffer: &mut Vec<T>, words: usize) -> &mut [T] {
    if buffer.len() < words {
        buffer.resize(words, T::default());
    }
    &mut buffer[..words]
}

/// The places that closers have, or none where it is their number.
fn places(closers: &[u32]) -> Vec<Option<usize>> {
    let place = |&word: &u32| Some(word as usize).filter(|&place| place < closers.len());
    closers.iter().map(place).collect()
}

/// The span of a token of the table.
fn span(&[start, len, _]: &[u32; 3]) -> Range<usize> {
    let start = start as usize;
    start..start + len as usize
}

/// The words of work for so many tokens other than Space.
const fn work_words(others: usize) -> usize {
    2 * (others + 1)
}

/// The words of tree for so many tokens other than Space.
const fn tree_words(others: usize) -> usize {
    32 * (others + 1)
}

/// Bytes that are enough for any print: a line has at most 12 for each word of its node.
const fn print_bytes(others: usize) -> usize {
    12 * tree_words(others) + 64
}

/// Bytes that are enough for the MathML of any text of so many bytes.
const fn mathml_bytes(bytes: usize) -> usize {
    48 * bytes + 72
}

/// Where a part starts in its text; past the end if it is no part of it.
fn start_of(text: &str, part: &str) -> u32 {
    let start = (part.as_ptr() as usize).wrapping_sub(text.as_ptr() as usize);
    if start <= text.len() {
        start as u32
    } else {
        u32::MAX
    }
}
