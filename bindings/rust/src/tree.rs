//! The tree of a reading, with the names of asciimath-parser's tree
//!
//! - [`Expression`] - A sequence of intermediate expressions
//! - [`Intermediate`] - A scripted part, a fraction or a space
//! - [`Frac`] - A fraction made by `/`
//! - [`ScriptFunc`] - A scripted expression, which is a [`Func`], a [`Signed`] operand or a simple
//!   expression
//! - [`SimpleScript`] - A simple expression with sub- and superscripts
//! - [`Simple`] - A simple expression like a [`Symbol`], a [`Group`] or a [`Matrix`]
//!
//! `T` is how the tree holds parts of the text: owned as [`Part`], or for instance as `&str`.
//!
//! Trees can be a thousand nodes deep. Reading one takes up to about 250 KB of stack, dropping it 120
//! KB, cloning it 670 KB, or 1.5 MB without optimisation.

use crate::{Part, SymbolClass};
use std::ops::{Deref, Index};
use std::slice::ChunksExact;

/// A defined symbol with its class, like the `=` of `a = b`
#[derive(Debug, Clone, Copy, PartialEq, Eq)]
pub struct Symbol<T = Part> {
    /// The symbol text
    pub text: T,
    /// What the symbol is
    pub class: SymbolClass,
}

/// A unary operator like "sqrt"
#[derive(Debug, Clone, PartialEq, Eq)]
pub struct SimpleUnary<T = Part> {
    /// The operator name
    pub op: T,
    /// The operator argument
    pub arg: Box<Simple<T>>,
}

impl<T> SimpleUnary<T> {
    /// The operator argument
    #[must_use]
    pub fn arg(&self) -> &Simple<T> {
        &self.arg
    }
}

/// A function like "sin" where it can't have scripts, as in an argument
#[derive(Debug, Clone, PartialEq, Eq)]
pub struct SimpleFunc<T = Part> {
    /// The function name
    pub func: T,
    /// The function argument
    pub arg: Box<Simple<T>>,
}

impl<T> SimpleFunc<T> {
    /// The function argument
    #[must_use]
    pub fn arg(&self) -> &Simple<T> {
        &self.arg
    }
}

/// A binary operator like "root"
#[derive(Debug, Clone, PartialEq, Eq)]
pub struct SimpleBinary<T = Part> {
    /// The operator name
    pub op: T,
    /// The first operator argument
    pub first: Box<Simple<T>>,
    /// The second operator argument
    pub second: Box<Simple<T>>,
}

impl<T> SimpleBinary<T> {
    /// The first operator argument
    #[must_use]
    pub fn first(&self) -> &Simple<T> {
        &self.first
    }

    /// The second operator argument
    #[must_use]
    pub fn second(&self) -> &Simple<T> {
        &self.second
    }
}

/// A sign prefixing a simple expression, like the `-` of `x^-1`
#[derive(Debug, Clone, PartialEq, Eq)]
pub struct SimpleSigned<T = Part> {
    /// The sign
    pub sign: T,
    /// The signed operand
    pub operand: Box<Simple<T>>,
}

impl<T> SimpleSigned<T> {
    /// The signed operand
    #[must_use]
    pub fn operand(&self) -> &Simple<T> {
        &self.operand
    }
}

/// A bracketed group; a bracket that isn't there is the empty text
#[derive(Debug, Clone, PartialEq, Eq)]
pub struct Group<T = Part> {
    /// The left bracket
    pub left_bracket: T,
    /// The grouped expression
    pub expr: Expression<T>,
    /// The right bracket
    pub right_bracket: T,
}

/// A matrix e.g. "[[a, b], [x, y]]"
///
/// A column whose cells are all a lone `|` is no column but a line in
/// [`column_lines`][Matrix::column_lines]. `matrix[y]` is a row and `matrix[[x, y]]` a cell, in
/// `[column, row]` order.
#[derive(Debug, Clone, PartialEq, Eq)]
pub struct Matrix<T = Part> {
    /// The matrix's left bracket
    pub left_bracket: T,
    cells: Box<[Expression<T>]>,
    /// Boxed to keep every simple expression small
    shape: Box<MatrixShape>,
    /// The matrix's right bracket
    pub right_bracket: T,
}

#[derive(Debug, Clone, PartialEq, Eq)]
struct MatrixShape {
    num_cols: usize,
    column_lines: Box<[usize]>,
}

impl<T> Matrix<T> {
    /// A matrix of its cells row by row, if they make whole rows and the lines are at boundaries
    pub(crate) fn new(
        left_bracket: T,
        cells: Box<[Expression<T>]>,
        num_cols: usize,
        column_lines: Box<[usize]>,
        right_bracket: T,
    ) -> Option<Self> {
        let whole = cells.len().checked_rem(num_cols)? == 0;
        let lines_fit = column_lines.is_sorted() && column_lines.iter().all(|&x| x <= num_cols);
        (whole && lines_fit).then_some(Matrix {
            left_bracket,
            cells,
            shape: Box::new(MatrixShape {
                num_cols,
                column_lines,
            }),
            right_bracket,
        })
    }

    /// The column boundaries with a vertical line, in order
    ///
    /// Boundary 0 is before the first column and [`num_cols`][Matrix::num_cols] is after the last.
    #[must_use]
    pub fn column_lines(&self) -> &[usize] {
        &self.shape.column_lines
    }

    /// The number of columns
    #[must_use]
    pub fn num_cols(&self) -> usize {
        self.shape.num_cols
    }

    /// The number of rows
    #[must_use]
    pub fn num_rows(&self) -> usize {
        self.cells.len() / self.shape.num_cols
    }

    /// The number of total cells
    #[must_use]
    pub fn num_cells(&self) -> usize {
        self.cells.len()
    }

    /// A top-down iterator over rows as slices
    pub fn rows(&self) -> ChunksExact<'_, Expression<T>> {
        self.cells.chunks_exact(self.shape.num_cols)
    }
}

impl<T> Index<usize> for Matrix<T> {
    type Output = [Expression<T>];

    /// A row
    ///
    /// # Panics
    /// Where there is no such row
    fn index(&self, row: usize) -> &Self::Output {
        self.rows().nth(row).expect("index out of bounds")
    }
}

impl<T> Index<[usize; 2]> for Matrix<T> {
    type Output = Expression<T>;

    /// The cell of a column and a row
    ///
    /// # Panics
    /// Where there is no such cell
    fn index(&self, [x, y]: [usize; 2]) -> &Self::Output {
        &self[y][x]
    }
}

/// A simple element of parsing
#[derive(Default, Debug, Clone, PartialEq, Eq)]
pub enum Simple<T = Part> {
    /// An argument that isn't there
    #[default]
    Missing,
    /// A raw number
    Number(T),
    /// Raw text
    Text(T),
    /// A single letter
    Ident(T),
    /// An unrecognized operator, like `?`
    Operator(T),
    /// A recognized symbol and its class
    Symbol(Symbol<T>),
    /// A sign joining the operands on either side of it, or one with nothing after it to bind
    Sign(T),
    /// A sign prefixing the simple expression after it, like the `-` of `x^-1`
    Signed(SimpleSigned<T>),
    /// A unary operator
    Unary(SimpleUnary<T>),
    /// A simple unary function
    Func(SimpleFunc<T>),
    /// A binary function
    Binary(SimpleBinary<T>),
    /// A bracketed group
    Group(Group<T>),
    /// A matrix
    Matrix(Matrix<T>),
}

impl<T> Simple<T> {
    /// Get as an option where Missing is None
    #[must_use]
    pub fn as_option(&self) -> Option<&Self> {
        match self {
            Simple::Missing => None,
            simple => Some(simple),
        }
    }
}

/// Scripts attached to some other object; a script can be [missing][Simple::Missing]
#[derive(Default, Debug, Clone, PartialEq, Eq)]
pub enum Script<T = Part> {
    /// No super or subscripts
    #[default]
    None,
    /// Only a subscript
    Sub(Simple<T>),
    /// Only a superscript
    Super(Simple<T>),
    /// A sub and superscript
    Subsuper(Simple<T>, Simple<T>),
}

impl<T> Script<T> {
    /// Get the subscript
    #[must_use]
    pub fn sub(&self) -> Option<&Simple<T>> {
        match self {
            Script::Sub(sub) | Script::Subsuper(sub, _) => Some(sub),
            _ => None,
        }
    }

    /// Get the superscript
    #[must_use]
    pub fn sup(&self) -> Option<&Simple<T>> {
        match self {
            Script::Super(sup) | Script::Subsuper(_, sup) => Some(sup),
            _ => None,
        }
    }
}

/// A simple expression with attached scripts
#[derive(Debug, Clone, PartialEq, Eq)]
pub struct SimpleScript<T = Part> {
    /// The simple argument
    pub simple: Simple<T>,
    /// Any script modifications
    pub script: Script<T>,
}

impl<T> Deref for SimpleScript<T> {
    type Target = Script<T>;

    fn deref(&self) -> &Self::Target {
        &self.script
    }
}

/// A function with attached scripts and a scripted argument
#[derive(Debug, Clone, PartialEq, Eq)]
pub struct Func<T = Part> {
    /// The function name
    pub func: T,
    /// Any script modifications of the function
    pub script: Script<T>,
    /// The function argument
    pub arg: Box<ScriptFunc<T>>,
}

impl<T> Func<T> {
    /// The function argument
    #[must_use]
    pub fn arg(&self) -> &ScriptFunc<T> {
        &self.arg
    }
}

impl<T> Deref for Func<T> {
    type Target = Script<T>;

    fn deref(&self) -> &Self::Target {
        &self.script
    }
}

/// A sign prefixing a scripted expression, like the `-` of `-x^2`
#[derive(Debug, Clone, PartialEq, Eq)]
pub struct Signed<T = Part> {
    /// The sign
    pub sign: T,
    /// The signed operand
    pub operand: Box<ScriptFunc<T>>,
}

impl<T> Signed<T> {
    /// The signed operand
    #[must_use]
    pub fn operand(&self) -> &ScriptFunc<T> {
        &self.operand
    }
}

/// A scripted object or a scripted function
#[derive(Debug, Clone, PartialEq, Eq)]
pub enum ScriptFunc<T = Part> {
    /// A scripted simple expression
    Simple(SimpleScript<T>),
    /// A function with sub and superscripts
    Func(Func<T>),
    /// A sign prefixing a scripted expression
    Signed(Signed<T>),
}

/// A fraction
#[derive(Debug, Clone, PartialEq, Eq)]
pub struct Frac<T = Part> {
    /// The numerator
    pub numer: ScriptFunc<T>,
    /// The denominator
    pub denom: ScriptFunc<T>,
}

/// An intermediate expression
#[derive(Debug, Clone, PartialEq, Eq)]
pub enum Intermediate<T = Part> {
    /// A simple scripted object
    ScriptFunc(ScriptFunc<T>),
    /// A fraction between scripted objects
    Frac(Frac<T>),
    /// The whitespace typed between two neighboring intermediates of an [`Expression`]
    Space(T),
}

/// A full expression: a sequence of intermediate expressions, to which it derefs
#[derive(Debug, Clone, PartialEq, Eq)]
pub struct Expression<T = Part>(pub(crate) Box<[Intermediate<T>]>);

impl<T> Deref for Expression<T> {
    type Target = [Intermediate<T>];

    fn deref(&self) -> &Self::Target {
        &self.0
    }
}
