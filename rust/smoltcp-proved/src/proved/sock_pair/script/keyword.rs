// Made from crates/sock_pair/src/script/keyword.rt by rust/translate: change it there.
//! The first word of a line.

/// What a line of a script asks for, as its first word names it.
#[derive(Clone, Copy)]
pub enum Keyword {
    Listen,
    Connect,
    Close,
    Abort,
    Send,
    Recv,
    Nagle,
    Rules,
    Dispatch,
    Fail,
    Gone,
    Deliver,
}

impl Keyword {
    /// The keyword that this word is; none where it is none.
    pub fn of_word(word: &[u8]) -> Option<Keyword> {
        match word {
            name if name == b"listen".as_slice() => Some(Keyword::Listen),
            name if name == b"connect".as_slice() => Some(Keyword::Connect),
            name if name == b"close".as_slice() => Some(Keyword::Close),
            name if name == b"abort".as_slice() => Some(Keyword::Abort),
            _ => Keyword::of_later_word(word),
        }
    }

    // One that comes later in the table: in a match with all of them each arm has all ways out before it.
    fn of_later_word(word: &[u8]) -> Option<Keyword> {
        match word {
            name if name == b"send".as_slice() => Some(Keyword::Send),
            name if name == b"recv".as_slice() => Some(Keyword::Recv),
            name if name == b"nagle".as_slice() => Some(Keyword::Nagle),
            name if name == b"rules".as_slice() => Some(Keyword::Rules),
            _ => Keyword::of_last_word(word),
        }
    }

    fn of_last_word(word: &[u8]) -> Option<Keyword> {
        match word {
            name if name == b"dispatch".as_slice() => Some(Keyword::Dispatch),
            name if name == b"fail".as_slice() => Some(Keyword::Fail),
            name if name == b"gone".as_slice() => Some(Keyword::Gone),
            name if name == b"deliver".as_slice() => Some(Keyword::Deliver),
            _ => None,
        }
    }
}
