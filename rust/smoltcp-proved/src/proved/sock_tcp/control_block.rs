// Made from crates/sock_tcp/src/control_block.rt by rust/translate: change it there.
//! The transmission control block (RFC 9293, section 3.3.1), and the value that contracts see.

use crate::proved::control_wire::TcpSeqNumber;
use crate::proved::ip_wire::IpListenEndpoint;
use crate::proved::net_base::ring_buffer::RingBuffer;
use crate::proved::net_base::time::{Duration, Instant};
use crate::proved::sock_core::congestion::AnyController;
use crate::proved::sock_core::receive_buffer::ReceiveBuffer;
use crate::proved::sock_core::rtte::RttEstimator;
use crate::proved::sock_tcp::kept::DelayKind;
use crate::proved::sock_tcp::recovery::Recovery;
use crate::proved::sock_tcp::rules::Rules;
use crate::proved::sock_tcp::scoreboard::Scoreboard;
use crate::proved::sock_tcp::state::State;
use crate::proved::sock_tcp::timer::Timer;
use crate::proved::sock_tcp::tuple::Tuple;
use crate::proved::sock_tcp::undo::Undo;

/// All that a socket keeps but its source of timestamps: the transmission control block (RFC 9293, section 3.3.1).
// The fields stand by their alignment, so that no room is lost between them.
#[derive(Debug)]
pub struct ControlBlock<'a> {
    // what is waited for: a retransmission, a probe, the end of TIME-WAIT
    pub(crate) timer: Timer,
    // the round-trip estimate and the retransmission timeout (RFC 6298)
    pub(crate) rtte: RttEstimator,
    // the receive queue, and what is held behind it
    pub(crate) rx_buffer: ReceiveBuffer<'a>,
    // the transmit queue, which is the retransmission queue too
    pub(crate) tx_buffer: RingBuffer<'a, u8>,
    // the user's timeout
    pub(crate) timeout: Duration,
    // how long after the last segment a keep-alive comes
    pub(crate) keep_alive: Duration,
    // when the last segment came
    pub(crate) remote_last_ts: Instant,
    // how long an acknowledgement may wait for data to go with
    pub(crate) ack_delay: Duration,
    // whether an acknowledgement waits, and until when
    pub(crate) ack_delay_until: Instant,
    // before this moment no further challenge ACK goes out
    pub(crate) challenge_ack_timer: Instant,
    // from when on nothing was sent for a retransmission timeout, by the RFCs' rules
    pub(crate) idle_at: Instant,
    // how many bytes may be in flight
    pub(crate) congestion_controller: AnyController,
    // what undoes a recovery that was for nothing, by the RFCs' rules
    pub(crate) undo: crate::kit::OfRfc<Undo>,
    // SND.WND
    pub(crate) remote_win_len: usize,
    // the largest segment that the peer takes, in bytes
    pub(crate) remote_mss: usize,
    // the largest SND.WND that was told, by the RFCs' rules
    pub(crate) largest_window: usize,
    // SND.UNA
    pub(crate) local_seq_no: TcpSeqNumber,
    // the number of the first byte of the receive queue
    pub(crate) remote_seq_no: TcpSeqNumber,
    // SND.NXT
    pub(crate) remote_last_seq: TcpSeqNumber,
    // the acknowledgement that was sent last
    pub(crate) remote_last_ack: Option<TcpSeqNumber>,
    // the number of the last segment in the window
    pub(crate) local_rx_last_seq: TcpSeqNumber,
    // the last acknowledgement that was no duplicate
    pub(crate) local_rx_last_ack: TcpSeqNumber,
    // the last timestamp value of the peer
    pub(crate) last_remote_tsval: u32,
    // what goes on of a loss, by the RFCs' rules
    pub(crate) recovery: crate::kit::OfRfc<Recovery>,
    // what the peer told by SACK, by the RFCs' rules
    pub(crate) sacked: crate::kit::OfRfc<Scoreboard>,
    // SND.WL1 and SND.WL2, by the RFCs' rules
    pub(crate) snd_wl1: TcpSeqNumber,
    pub(crate) snd_wl2: TcpSeqNumber,
    // both endpoints, where there is a peer
    pub(crate) tuple: Option<Tuple>,
    // what a listener listens on, also while its connection lasts
    pub(crate) listen_endpoint: IpListenEndpoint,
    // the window field that was sent last
    pub(crate) remote_last_win: u16,
    // the connection state (section 3.3.2)
    pub(crate) state: State,
    // where smoltcp's differ from the RFCs'
    pub(crate) rules: Rules,
    // a FIN of the peer was counted
    pub(crate) rx_fin_received: bool,
    // of packets that go out; 64 where none is set
    pub(crate) hop_limit: Option<u8>,
    // by how many bits the own window field is shifted
    pub(crate) remote_win_shift: u8,
    // by how many bits the peer's window field is shifted
    pub(crate) remote_win_scale: Option<u8>,
    // the peer permits SACK (RFC 2018)
    pub(crate) remote_has_sack: bool,
    // how many duplicates of it came
    pub(crate) local_rx_dup_acks: u8,
    // for how many quarters of a round trip a loss is waited for, as segments came late, by the RFCs' rules
    pub(crate) reordering: u8,
    // the segment at SND.UNA goes out again, or by the RFCs' rules the next hole
    pub(crate) pending_fast_retransmit: bool,
    // small segments wait while data is in flight (section 3.7.4)
    pub(crate) nagle: bool,
    // a SYN|ACK waits
    pub(crate) synack_paused: bool,
    // segments carry a timestamp (RFC 7323, section 3)
    pub(crate) stamps: bool,
    // a close waits for the acknowledgement of the SYN, by the RFCs' rules
    pub(crate) close_waits: bool,
    // which of these there are (kept.rt)
    pub(crate) has_timeout: bool,
    pub(crate) has_keep_alive: bool,
    pub(crate) has_remote_last_ts: bool,
    pub(crate) has_local_rx_last_seq: bool,
    pub(crate) has_local_rx_last_ack: bool,
    pub(crate) has_ack_delay: bool,
    pub(crate) ack_delay_kind: DelayKind,
    pub(crate) has_idle_at: bool,
}

impl<'a> ControlBlock<'a> {
    // Both rings.
    pub(crate) fn into_buffers(self) -> (RingBuffer<'a, u8>, RingBuffer<'a, u8>) {
        let ControlBlock { rx_buffer, tx_buffer, .. } = self;
        (rx_buffer.into_ring(), tx_buffer)
    }
}
