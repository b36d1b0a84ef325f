// Made from crates/script_chart/src/picture.rt by rust/translate: change it there.
//! Which picture is drawn.

use crate::proved::sock_pair::Side;

/// Which picture is drawn.
#[derive(Clone, Copy)]
pub enum Picture {
    /// What both sides did, row by row, with numbers counted from each side's SYN where they are relative.
    Chart { relative: bool },
    /// The sequence numbers of one side over time.
    Sequence(Side),
}
