// Made from crates/script_chart/src/axis.rt by rust/translate: change it there.
//! A range of numbers along a line of the page.

/// The numbers from `first` to `last`, from one place of the page to another.
#[derive(Clone, Copy)]
pub struct Axis {
    pub first: u64,
    pub last: u64,
    /// Where the first stands.
    pub from: u64,
    /// Where the last stands.
    pub to: u64,
}

// At most so many steps between marks.
const STEPS: u64 = 10;

// The distances between the marks of an axis.
const DISTANCES: &[u64] = &[
    1,
    2,
    5,
    10,
    20,
    50,
    100,
    200,
    500,
    1_000,
    2_000,
    5_000,
    10_000,
    20_000,
    50_000,
    100_000,
    200_000,
    500_000,
    1_000_000,
    2_000_000,
    5_000_000,
    10_000_000,
    20_000_000,
    50_000_000,
    100_000_000,
    200_000_000,
    500_000_000,
];

impl Axis {
    /// Where a number stands; one beyond an end stands at that end.
    pub fn place(self, number: u64) -> u64 {
        let span = self.last.saturating_sub(self.first).max(1);
        let offset = number.saturating_sub(self.first).min(span);
        if self.from < self.to {
            let room = self.to - self.from;
            self.from.saturating_add(offset.saturating_mul(room) / span)
        } else {
            let room = self.from - self.to;
            self.from.saturating_sub(offset.saturating_mul(room) / span)
        }
    }

    /// The distance between its marks: 1, 2 or 5 times a power of ten.
    pub fn distance(self) -> u64 {
        let span = self.last.saturating_sub(self.first);
        for distance in DISTANCES {
            if span <= distance.saturating_mul(STEPS) {
                return *distance;
            }
        }
        1_000_000_000
    }

    /// The mark of this index; none behind the last number.
    pub fn mark(self, index: u64) -> Option<u64> {
        let distance = self.distance().max(1);
        let before = self.first.saturating_add(distance - 1) / distance;
        let mark = before.saturating_add(index).saturating_mul(distance);
        if mark <= self.last { Some(mark) } else { None }
    }
}
