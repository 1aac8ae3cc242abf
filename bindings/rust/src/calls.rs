//! The library's calls as they are, on buffers that the caller lends.
//!
//! Each answers 0 and puts its values first into `answer`, as many as it has words for, or answers
//! a refusal's number and leaves `answer` as it was. Every call is total: no bytes, words or lengths
//! are wrong to pass. include/asciimath.h says what each reads and writes.
//!
//! Lend slices for the bytes of the text, not whole buffers: a reading clears all words of work and
//! tree that it is lent. One letter takes 0.1 µs in buffers for its one byte and 5 in buffers for
//! 4,096 tokens, several times as much where those words are not in the cache (measured with an older
//! kit's archive, not again with today's).

/// A slice as the library takes it: a pointer, then the number of elements.
trait Lent {
    type Pointer;
    fn parts(self) -> (Self::Pointer, usize);
}

impl<T> Lent for &[T] {
    type Pointer = *const T;
    #[inline]
    fn parts(self) -> (*const T, usize) {
        (self.as_ptr(), self.len())
    }
}

impl<T> Lent for &mut [T] {
    type Pointer = *mut T;
    #[inline]
    fn parts(self) -> (*mut T, usize) {
        (self.as_mut_ptr(), self.len())
    }
}

/// Declares each call of the library and makes a safe function of it. The parameters are slices, or
/// slices, a number and slices.
macro_rules! calls {
    ($(
        $(#[$doc:meta])*
        $name:ident = $symbol:ident(
            $($slice:ident: $type:ty),* $(; $number:ident: usize; $($more:ident: $more_type:ty),*)?
        )
    )*) => {
        unsafe extern "C" {
            $(fn $symbol(
                $($slice: <$type as Lent>::Pointer, _: usize,)*
                $($number: usize, $($more: <$more_type as Lent>::Pointer, _: usize),*)?
            ) -> u32;)*
        }
        $(
            $(#[$doc])*
            #[inline]
            pub fn $name($($slice: $type,)* $($number: usize, $($more: $more_type),*)?) -> u32 {
                $(let $slice = $slice.parts();)*
                $($(let $more = $more.parts();)*)?
                // Slices give what the library asks for: pointers that are not null and aligned, and
                // lent buffers that do not overlap. No call keeps a pointer.
                unsafe {
                    $symbol($($slice.0, $slice.1,)* $($number, $($more.0, $more.1),*)?)
                }
            }
        )*
    };
}

calls! {
    /// The tokens of a text, into the table. Values: tokens.
    tokens = asciimath_tokens(text: &[u8], table: &mut [u32], answer: &mut [u64])

    /// Counts the tokens of a text. Values: tokens, tokens other than Space.
    count = asciimath_count(text: &[u8], answer: &mut [u64])

    /// The longest spelling that begins a text at a place. Values: its length, its kind and its row; or
    /// a length of 0 alone, if none does.
    lookup = asciimath_lookup(text: &[u8]; at: usize; answer: &mut [u64])

    /// Reads a text. Values: tokens, takes, items of the root, blank.
    parse = asciimath_parse(
        text: &[u8], table: &mut [u32], work: &mut [u32], tree: &mut [u32], answer: &mut [u64]
    )

    /// Reads a list of `count` tokens over a text. Values: takes, items of the root, blank.
    parse_tokens = asciimath_parse_tokens(
        text: &[u8], table: &[u32]; count: usize; work: &mut [u32], tree: &mut [u32], answer: &mut [u64]
    )

    /// The tokens of a text, into the table, and the places of their closers. Values: tokens, tokens
    /// other than Space.
    closers_text = asciimath_closers_text(
        text: &[u8], table: &mut [u32], out: &mut [u32], answer: &mut [u64]
    )

    /// The places of the closers of a list of `count` tokens over a text. Values: tokens other than
    /// Space.
    closers = asciimath_closers(
        text: &[u8], table: &[u32]; count: usize; out: &mut [u32], answer: &mut [u64]
    )

    /// Reads a text and writes its MathML. Values: length of the MathML, takes, blank.
    mathml = asciimath_mathml(
        text: &[u8], table: &mut [u32], work: &mut [u32], tree: &mut [u32], out: &mut [u8],
        answer: &mut [u64]
    )

    /// Reads a text and prints its tree. Values: length of the print, takes, blank.
    print = asciimath_print(
        text: &[u8], table: &mut [u32], work: &mut [u32], tree: &mut [u32], out: &mut [u8],
        answer: &mut [u64]
    )
}
