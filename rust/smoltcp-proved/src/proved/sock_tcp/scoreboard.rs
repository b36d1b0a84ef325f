// Made from crates/sock_tcp/src/scoreboard.rt by rust/translate: change it there.
//! The scoreboard of a sender: what the peer told by SACK that it has (RFC 2018, section 5; RFC 6675, section 4).

use crate::proved::control_wire::TcpSeqNumber;

/// Bytes that the peer told, counted from SND.UNA on. None where it ends at 0.
#[derive(Debug, Clone, Copy)]
pub struct SackBlock {
    /// The place of the first one.
    pub start: u32,
    /// The place behind the last one.
    pub end: u32,
}

/// Bytes that the peer lacks, before some that it told, counted from SND.UNA on.
#[derive(Debug, Clone, Copy)]
pub struct Hole {
    /// The place of the first one.
    pub start: u32,
    /// The place behind the last one.
    pub end: u32,
}

/// What the peer told by SACK: at most four blocks, which neither overlap nor touch.
#[derive(Debug, Clone, Copy)]
pub struct Scoreboard {
    /// The block that was told last.
    pub newest: SackBlock,
    /// The one before it.
    pub second: SackBlock,
    /// The one before that.
    pub third: SackBlock,
    /// The one that is given up where another comes.
    pub oldest: SackBlock,
}

const NO_BLOCK: SackBlock = SackBlock { start: 0, end: 0 };

/// Nothing was told.
pub const NOTHING_TOLD: Scoreboard =
    Scoreboard { newest: NO_BLOCK, second: NO_BLOCK, third: NO_BLOCK, oldest: NO_BLOCK };

impl SackBlock {
    // The block of a SACK option.
    fn from(una: TcpSeqNumber, range: (u32, u32)) -> SackBlock {
        SackBlock {
            start: TcpSeqNumber(range.0).since(una) as u32,
            end: TcpSeqNumber(range.1).since(una) as u32,
        }
    }

    fn is_none(self) -> bool {
        self.end == 0
    }

    // Whether it tells of bytes behind SND.UNA, of which `sent` were sent: nothing else is believed.
    fn is_credible(self, sent: usize) -> bool {
        0 < self.start && (self.start < self.end && self.end as usize <= sent)
    }

    fn is_within(self, other: SackBlock) -> bool {
        other.start <= self.start && self.end <= other.end
    }

    // Both with what lies between, where they overlap or touch.
    fn joined(self, other: SackBlock) -> SackBlock {
        if self.start <= other.end && other.start <= self.end {
            SackBlock { start: self.start.min(other.start), end: self.end.max(other.end) }
        } else {
            self
        }
    }

    // The other one, unless it lies in this one.
    fn unless_within(self, other: SackBlock) -> SackBlock {
        if other.is_within(self) { NO_BLOCK } else { other }
    }

    // SND.UNA moves by so many bytes.
    fn moved(self, count: u32) -> SackBlock {
        SackBlock { start: self.start.saturating_sub(count), end: self.end.saturating_sub(count) }
    }

    // Behind the block, where the place lies in it.
    fn passed(self, place: u32) -> u32 {
        if self.start <= place && place < self.end { self.end } else { place }
    }

    // The sooner start behind the place; 0 stands for none.
    fn sooner(self, place: u32, best: u32) -> u32 {
        if place < self.start && (best == 0 || self.start < best) { self.start } else { best }
    }
}

impl Scoreboard {
    /// Whether nothing is told.
    pub fn is_blank(&self) -> bool {
        self.newest.is_none() && (self.second.is_none() && (self.third.is_none() && self.oldest.is_none()))
    }

    fn is_known(&self, block: SackBlock) -> bool {
        block.is_within(self.newest)
            || (block.is_within(self.second) || (block.is_within(self.third) || block.is_within(self.oldest)))
    }

    // The block with those that it overlaps or touches.
    fn joined_all(&self, block: SackBlock) -> SackBlock {
        let block = block.joined(self.newest).joined(self.second);
        block.joined(self.third).joined(self.oldest)
    }

    // Without the blocks that lie in this one.
    fn without(&self, block: SackBlock) -> Scoreboard {
        Scoreboard {
            newest: block.unless_within(self.newest),
            second: block.unless_within(self.second),
            third: block.unless_within(self.third),
            oldest: block.unless_within(self.oldest),
        }
    }

    // The new one comes first; where there is no place left, the oldest is given up.
    fn pushed(self, block: SackBlock) -> Scoreboard {
        let mut after = self;
        after.newest = block;
        if self.newest.is_none() {
            return after;
        }
        after.second = self.newest;
        if self.second.is_none() {
            return after;
        }
        after.third = self.second;
        if self.third.is_none() {
            return after;
        }
        after.oldest = self.third;
        after
    }

    fn added(&self, block: SackBlock) -> Scoreboard {
        let block = self.joined_all(block);
        self.without(block).pushed(block)
    }

    fn is_news(&self, sent: usize, block: SackBlock) -> bool {
        block.is_credible(sent) && !self.is_known(block)
    }

    fn tells_news(&self, sent: usize, una: TcpSeqNumber, range: Option<(u32, u32)>) -> bool {
        match range {
            None => false,
            Some(range) => self.is_news(sent, SackBlock::from(una, range)),
        }
    }

    fn told(&self, sent: usize, una: TcpSeqNumber, range: Option<(u32, u32)>) -> Scoreboard {
        match range {
            None => *self,
            Some(range) => {
                let block = SackBlock::from(una, range);
                if self.is_news(sent, block) { self.added(block) } else { *self }
            }
        }
    }

    /// Whether one of a segment's blocks tells something new, where `sent` bytes behind SND.UNA were sent: none that
    /// tells of other bytes is believed (RFC 6675, section 2).
    pub fn any_news(&self, sent: usize, una: TcpSeqNumber, ranges: &[Option<(u32, u32)>; 3]) -> bool {
        let [first, second, third] = *ranges;
        self.tells_news(sent, una, first)
            || (self.tells_news(sent, una, second) || self.tells_news(sent, una, third))
    }

    /// With what a segment's blocks tell, of which the first is the newest (RFC 2018, section 4).
    pub fn all_told(&self, sent: usize, una: TcpSeqNumber, ranges: &[Option<(u32, u32)>; 3]) -> Scoreboard {
        let [first, second, third] = *ranges;
        let after = self.told(sent, una, third).told(sent, una, second);
        after.told(sent, una, first)
    }

    /// Once SND.UNA has moved by so many bytes: what lies before it is dropped.
    pub fn moved(&self, count: usize) -> Scoreboard {
        let count = count as u32;
        Scoreboard {
            newest: self.newest.moved(count),
            second: self.second.moved(count),
            third: self.third.moved(count),
            oldest: self.oldest.moved(count),
        }
    }

    // The first place from there on that was not told.
    fn untold(&self, place: u32) -> u32 {
        let place = self.second.passed(self.newest.passed(place));
        self.oldest.passed(self.third.passed(place))
    }

    // The first start of a block behind the place; 0 stands for none.
    fn next_told(&self, place: u32) -> u32 {
        let best = self.newest.sooner(place, 0);
        let best = self.second.sooner(place, best);
        let best = self.third.sooner(place, best);
        self.oldest.sooner(place, best)
    }

    /// Where what was told ends, counted from SND.UNA, and 0 where nothing was.
    pub fn highest_told(&self) -> u32 {
        let newer = self.newest.end.max(self.second.end);
        newer.max(self.third.end.max(self.oldest.end))
    }

    /// The first hole from a place on, counted from SND.UNA: bytes that the peer lacks, before some that it told
    /// (RFC 6675, section 4, NextSeg).
    pub fn hole_behind(&self, place: usize) -> Option<Hole> {
        let start = self.untold(place as u32);
        let end = self.next_told(start);
        if end == 0 { None } else { Some(Hole { start, end }) }
    }
}

impl Hole {
    // Whether it begins in a transmit queue of so many bytes, which are at most 2^30.
    fn begins_in(self, queued: usize) -> bool {
        (self.start as usize) < queued.min(0x4000_0000)
    }
}

/// Where in a transmit queue of so many bytes the retransmission begins: at the hole, or at SND.UNA.
pub fn hole_start(hole: &Option<Hole>, queued: usize) -> usize {
    match hole {
        Some(hole) if hole.begins_in(queued) => hole.start as usize,
        _ => 0,
    }
}

/// How many bytes it has, of at most `most`: none behind the hole's end.
pub fn hole_size(hole: &Option<Hole>, queued: usize, most: usize) -> usize {
    match hole {
        Some(hole) if hole.begins_in(queued) => {
            most.min((hole.end.saturating_sub(hole.start) as usize).max(1))
        }
        _ => most,
    }
}

/// Its sequence number.
pub fn hole_number(hole: &Option<Hole>, queued: usize, una: TcpSeqNumber) -> TcpSeqNumber {
    match hole {
        None => una,
        Some(_) => una.plus(hole_start(hole, queued)),
    }
}
