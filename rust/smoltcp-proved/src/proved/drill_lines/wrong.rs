// Made from crates/drill_lines/src/wrong.rt by rust/translate: change it there.
//! What is wrong with the words of a line.

/// What is wrong with the words behind the first of a line.
#[derive(Clone, Copy)]
pub enum Wrong {
    /// There are too few of them, or too many.
    Number,
    /// One is not of its form, or beyond its limit.
    Word,
}

/// What words mean, or what is wrong with them.
pub type Read<T> = Result<T, Wrong>;

/// The meaning of a word that has one.
pub fn meant<T>(word: Option<T>) -> Read<T> {
    word.ok_or(Wrong::Word)
}

/// The words of a line that has as many as it should.
pub fn counted<T>(words: Option<T>) -> Read<T> {
    words.ok_or(Wrong::Number)
}
