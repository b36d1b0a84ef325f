// Made from crates/script_chart/src/page.rt by rust/translate: change it there.
//! Where things stand on the page. Each event has a row of one height, so no two of them overlap; in a row the number
//! of the script's line and the time stand at the left, then what side a does, the lifeline of a, the labels of
//! segments, the lifeline of b, and what b does. After so many rows comes one that has the sides' names again.

use crate::proved::sock_pair::Side;

/// The width of the page.
pub const WIDTH: usize = 1300;

/// Where the numbers of lines end.
pub const LINE: usize = 54;

/// Where the times end.
pub const TIME: usize = 142;

/// Where the events of neither side begin.
pub const NEITHER: usize = 156;

/// The height above the first row: the legend, and the names of the sides.
pub const HEAD: usize = 104;

/// The height of a row.
pub const ROW: usize = 38;

/// After so many rows the names of the sides stand again.
pub const SCREEN: usize = 40;

// The height under the last row.
const FOOT: usize = 20;

// The lifelines.
const LINE_A: usize = 420;

const LINE_B: usize = 970;

/// The room for a label between the lifelines.
pub const BETWEEN: usize = LINE_B - LINE_A - 20;

/// A row of the page. What stands in it keeps within it.
#[derive(Clone, Copy)]
pub struct Row {
    top: usize,
}

impl Row {
    /// The row of the first event.
    pub const FIRST: Row = Row { top: HEAD };

    /// The row below.
    pub fn next(self) -> Row {
        Row { top: self.top.saturating_add(ROW) }
    }

    /// The row's upper edge.
    pub fn edge(self) -> usize {
        self.below(0)
    }

    /// Where a segment arrives.
    pub fn arrival(self) -> usize {
        self.below(9)
    }

    /// Where a segment departs. It is below an arrival, for a reply departs in the row of what it answers.
    pub fn departure(self) -> usize {
        self.below(29)
    }

    /// The base line of the label of a segment that departs in this row.
    pub fn label(self) -> usize {
        self.below(23)
    }

    /// The base line of the first text beside a lifeline.
    pub fn first_line(self) -> usize {
        self.below(13)
    }

    /// The base line of the second text beside a lifeline.
    pub fn second_line(self) -> usize {
        self.below(28)
    }

    // The place so far below the row's upper edge.
    fn below(self, distance: usize) -> usize {
        self.top.saturating_add(distance)
    }
}

/// The height of a page with so many rows of events, and those of names between them.
pub fn height(rows: usize) -> usize {
    let names = rows.saturating_sub(1) / SCREEN;
    rows.saturating_add(names).saturating_mul(ROW).saturating_add(HEAD + FOOT)
}

/// Where the lifeline of a side stands.
pub fn lifeline(side: Side) -> usize {
    match side {
        Side::A => LINE_A,
        Side::B => LINE_B,
    }
}

/// The name of a side, and its endpoint.
pub fn name(side: Side) -> &'static str {
    match side {
        Side::A => "a 10.0.0.1:49152",
        Side::B => "b 10.0.0.2:80",
    }
}

/// Where a text stands in its row: it begins or ends at this place.
#[derive(Clone, Copy)]
pub enum Anchor {
    Start(usize),
    End(usize),
}

impl Anchor {
    /// Where texts stand that are between the lifelines, beside that of this side.
    pub fn inside(side: Side) -> Anchor {
        match side {
            Side::A => Anchor::Start(LINE_A + 10),
            Side::B => Anchor::End(LINE_B - 10),
        }
    }

    /// Where texts stand that are beside the lifeline of this side, on the outer side of it.
    pub fn outside(side: Side) -> Anchor {
        match side {
            Side::A => Anchor::End(LINE_A - 10),
            Side::B => Anchor::Start(LINE_B + 10),
        }
    }
}
