//! Stands in for the pretty printer of `miden_formatting`: text, never broken to fit a width.
//! Nothing that is compared or timed prints.

use core::{
    fmt,
    ops::{Add, BitOr},
};

/// Stands in for a document to be laid out.
#[derive(Default)]
pub struct Document(String);

impl Add for Document {
    type Output = Self;

    fn add(mut self, next: Self) -> Self {
        self.0.push_str(&next.0);
        self
    }
}

/// Of two layouts the first is taken.
impl BitOr for Document {
    type Output = Self;

    fn bitor(self, _other: Self) -> Self {
        self
    }
}

/// Stands in for the trait of things that can be laid out.
pub trait PrettyPrint {
    fn render(&self) -> Document;

    fn pretty_print(&self, f: &mut fmt::Formatter<'_>) -> fmt::Result {
        f.write_str(&self.render().0)
    }
}

pub fn const_text(text: &'static str) -> Document {
    Document(text.into())
}

pub fn display(value: impl fmt::Display) -> Document {
    Document(value.to_string())
}

pub fn nl() -> Document {
    const_text("\n")
}

pub fn indent(_by: usize, inner: Document) -> Document {
    inner
}
