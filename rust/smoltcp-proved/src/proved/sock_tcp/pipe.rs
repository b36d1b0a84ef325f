// Made from crates/sock_tcp/src/pipe.rt by rust/translate: change it there.
//! How much is in the network in a fast recovery (RFC 6675, sections 2 and 4).

use crate::proved::control_wire::TcpSeqNumber;
use crate::proved::sock_tcp::control_block::ControlBlock;
use crate::proved::sock_tcp::recovery::{Before, Recovery};
use crate::proved::sock_tcp::rules::Rules;
use crate::proved::sock_tcp::sacked::offset_from;
use crate::proved::sock_tcp::scoreboard::{SackBlock, Scoreboard};

impl SackBlock {
    // How many of its bytes lie before a place.
    fn before_place(self, place: u64) -> u64 {
        let end = (self.end as u64).min(place);
        end.saturating_sub((self.start as u64).min(place))
    }
}

impl Scoreboard {
    // How many of the bytes before a place were told.
    pub(crate) fn told_before(&self, place: u64) -> u64 {
        let first = self.newest.before_place(place) + self.second.before_place(place);
        let all = first + self.third.before_place(place) + self.oldest.before_place(place);
        all.min(place)
    }
}

impl Recovery {
    // How far holes were sent again, at most up to the highest byte that was told.
    fn resent_to(self, sacked: &Scoreboard, una: TcpSeqNumber) -> usize {
        match self {
            Recovery::Fast { high_rxt, .. } => offset_from(high_rxt, una).min(sacked.highest_told() as usize),
            _ => 0,
        }
    }

    // How many bytes of the holes that is.
    fn holes_sent(self, sacked: &Scoreboard, una: TcpSeqNumber) -> usize {
        let place = self.resent_to(sacked, una);
        place - sacked.told_before(place as u64) as usize
    }

    // What is in the network, of so many bytes that were sent behind SND.UNA.
    fn pipe(self, sacked: &Scoreboard, una: TcpSeqNumber, sent: usize) -> usize {
        let behind = sent.saturating_sub(sacked.highest_told() as usize);
        sent.min(behind + self.holes_sent(sacked, una))
    }

    // A segment for each two that were told, less what went out in this recovery, until something new is acknowledged.
    fn exchanged(self, sacked: &Scoreboard, una: TcpSeqNumber, sent: usize, mss: usize) -> usize {
        match self {
            Recovery::Fast { point, resent_at, .. } if resent_at == point => {
                let segments = sacked.told_before(1 << 32) as usize / (2 * mss.max(1));
                let new = sent.saturating_sub(point.since(una));
                (segments * mss).saturating_sub(self.holes_sent(sacked, una) + new)
            }
            _ => 0,
        }
    }

    // What may go out: what the window leaves beside what is in the network, or that.
    pub(crate) fn room(
        self,
        sacked: &Scoreboard,
        una: TcpSeqNumber,
        sent: usize,
        window: usize,
        mss: usize,
    ) -> usize {
        let left = window.saturating_sub(self.pipe(sacked, una, sent));
        left.max(self.exchanged(sacked, una, sent, mss))
    }

    // Whether a segment fits.
    fn has_room(
        self,
        sacked: &Scoreboard,
        una: TcpSeqNumber,
        sent: usize,
        window: usize,
        mss: usize,
    ) -> bool {
        self.room(sacked, una, sent, window, mss) >= mss.max(1)
    }
}

impl Before {
    // The network has room for a hole.
    pub(crate) fn has_room(&self, after: &ControlBlock<'_>) -> bool {
        let sacked = self.sacked_after(after);
        let window = self.controller.recovery_window();
        let (una, mss) = (after.local_seq_no, after.remote_mss);
        self.again(after).has_room(&sacked, una, after.flight(), window, mss)
    }

    // More than two segments were told behind a hole at SND.UNA.
    pub(crate) fn is_told_lost(&self, after: &ControlBlock<'_>) -> bool {
        if !self.only_tells(after) {
            return false;
        }
        let told = self.sacked_after(after).told_before(1 << 32);
        2 * (after.remote_mss as u64) < told
    }
}

impl<'a> ControlBlock<'a> {
    // A recovery counts what is in the network, where the peer tells by SACK.
    pub(crate) fn is_counted(&self) -> bool {
        match (crate::kit::in_force(self.rules), self.recovery.get()) {
            (Rules::Rfc, Recovery::Fast { .. }) => self.remote_has_sack,
            _ => false,
        }
    }

    // What may go out in such a recovery.
    pub(crate) fn recovery_left(&self) -> usize {
        let window = self.congestion_controller.recovery_window();
        let (una, mss) = (self.local_seq_no, self.remote_mss);
        self.recovery.get().room(&self.sacked.get(), una, self.flight(), window, mss)
    }

    // The next hole that the peer's window takes goes out at once while there is room.
    pub(crate) fn goes_on(&self) -> bool {
        self.is_counted() && self.hole().is_some() && self.recovery_left() >= self.remote_mss.max(1)
    }
}
