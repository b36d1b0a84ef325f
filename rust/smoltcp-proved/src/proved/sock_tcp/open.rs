// Made from crates/sock_tcp/src/open.rt by rust/translate: change it there.
//! Opening a connection: listen, connect, and the reset that both begin with (RFC 9293, section 3.10.1).

use crate::proved::control_wire::TcpSeqNumber;
use crate::proved::ip_wire::{IpAddress, IpEndpoint, IpListenEndpoint};
use crate::proved::net_base::ring_buffer::RingBuffer;
use crate::proved::net_base::time::{Duration, Instant};
use crate::proved::sock_core::congestion::AnyController;
use crate::proved::sock_core::receive_buffer::ReceiveBuffer;
use crate::proved::sock_core::rtte::RttEstimator;
use crate::proved::sock_core::{Context, window_shift};
use crate::proved::sock_tcp::control_block::ControlBlock;
use crate::proved::sock_tcp::error::{ConnectError, ListenError};
use crate::proved::sock_tcp::kept::DelayKind;
use crate::proved::sock_tcp::recovery::Recovery;
use crate::proved::sock_tcp::rules::Rules;
use crate::proved::sock_tcp::scoreboard::NOTHING_TOLD;
use crate::proved::sock_tcp::state::State;
use crate::proved::sock_tcp::timer::Timer;
use crate::proved::sock_tcp::tuple::Tuple;
use crate::proved::sock_tcp::undo::NOTHING_TO_UNDO;

// What a peer is taken to accept before it said more (RFC 9293, section 3.7.1).
const DEFAULT_MSS: usize = 536;

// How long an acknowledgement waits for data to go with, where the user says nothing (RFC 1122, section 4.2.3.2).
const ACK_DELAY: Duration = Duration { micros: 10_000 };

const IDLE: Timer = Timer::Idle { keep_alive_at: None };

impl<'a> ControlBlock<'a> {
    pub(crate) fn new(rx_buffer: RingBuffer<'a, u8>, tx_buffer: RingBuffer<'a, u8>) -> ControlBlock<'a> {
        let shift = window_shift(rx_buffer.capacity());
        ControlBlock {
            state: State::Closed,
            timer: IDLE,
            rtte: RttEstimator::default(),
            rx_buffer: ReceiveBuffer::new(rx_buffer),
            rx_fin_received: false,
            tx_buffer,
            has_timeout: false,
            timeout: Duration::ZERO,
            has_keep_alive: false,
            keep_alive: Duration::ZERO,
            hop_limit: None,
            listen_endpoint: IpListenEndpoint::default(),
            tuple: None,
            local_seq_no: TcpSeqNumber(0),
            remote_seq_no: TcpSeqNumber(0),
            remote_last_seq: TcpSeqNumber(0),
            remote_last_ack: None,
            remote_last_win: 0,
            remote_win_shift: shift,
            remote_win_len: 0,
            remote_win_scale: None,
            remote_has_sack: false,
            remote_mss: DEFAULT_MSS,
            has_remote_last_ts: false,
            remote_last_ts: Instant::ZERO,
            has_local_rx_last_seq: false,
            local_rx_last_seq: TcpSeqNumber(0),
            has_local_rx_last_ack: false,
            local_rx_last_ack: TcpSeqNumber(0),
            local_rx_dup_acks: 0,
            pending_fast_retransmit: false,
            has_ack_delay: true,
            ack_delay: ACK_DELAY,
            ack_delay_kind: DelayKind::Idle,
            ack_delay_until: Instant::ZERO,
            challenge_ack_timer: Instant::ZERO,
            nagle: true,
            congestion_controller: AnyController::new(),
            last_remote_tsval: 0,
            synack_paused: false,
            stamps: false,
            rules: Rules::Smoltcp,
            recovery: crate::kit::OfRfc::new(Recovery::Open),
            sacked: crate::kit::OfRfc::new(NOTHING_TOLD),
            snd_wl1: TcpSeqNumber(0),
            snd_wl2: TcpSeqNumber(0),
            has_idle_at: false,
            idle_at: Instant::ZERO,
            largest_window: 0,
            undo: crate::kit::OfRfc::new(NOTHING_TO_UNDO),
            close_waits: false,
            reordering: 0,
        }
    }

    pub(crate) fn reset(&mut self) {
        self.state = State::Closed;
        self.timer = IDLE;
        self.rtte = self.rtte.renewed();
        self.rx_buffer.clear();
        self.rx_fin_received = false;
        self.tx_buffer.clear();
        self.listen_endpoint = IpListenEndpoint::default();
        self.tuple = None;
        self.local_seq_no = TcpSeqNumber(0);
        self.remote_seq_no = TcpSeqNumber(0);
        self.remote_last_seq = TcpSeqNumber(0);
        self.remote_last_ack = None;
        self.remote_last_win = 0;
        self.remote_win_shift = window_shift(self.rx_buffer.capacity());
        self.remote_win_len = 0;
        self.remote_win_scale = None;
        self.remote_mss = DEFAULT_MSS;
        self.has_remote_last_ts = false;
        self.local_rx_dup_acks = 0;
        self.pending_fast_retransmit = false;
        self.ack_delay_kind = DelayKind::Idle;
        self.challenge_ack_timer = Instant::ZERO;
        self.congestion_controller = self.congestion_control().controller();
        self.recovery.set(Recovery::Open);
        self.sacked.set(NOTHING_TOLD);
        self.snd_wl1 = TcpSeqNumber(0);
        self.snd_wl2 = TcpSeqNumber(0);
        self.has_idle_at = false;
        self.largest_window = 0;
        self.undo.set(NOTHING_TO_UNDO);
        self.close_waits = false;
        self.reordering = 0;
    }

    pub(crate) fn is_open(&self) -> bool {
        !matches!(self.state, State::Closed | State::TimeWait)
    }

    fn begin_to_listen(&mut self, endpoint: IpListenEndpoint) {
        self.reset();
        self.state = State::Listen;
        self.listen_endpoint = endpoint;
    }

    pub(crate) fn listen(&mut self, endpoint: IpListenEndpoint) -> Result<(), ListenError> {
        if endpoint.port == 0 {
            return Err(ListenError::Unaddressable);
        }
        if self.is_open() {
            if matches!(self.state, State::Listen) && self.listen_endpoint == endpoint {
                return Ok(());
            }
            return Err(ListenError::InvalidState);
        }
        self.begin_to_listen(endpoint);
        Ok(())
    }

    // Both endpoints of a connection, or what forbids it.
    fn endpoints<C: Context>(
        &self,
        cx: &C,
        remote: IpEndpoint,
        local: IpListenEndpoint,
    ) -> Result<Tuple, ConnectError> {
        if self.is_open() {
            return Err(ConnectError::InvalidState);
        }
        if remote.port == 0 || remote.addr.is_unspecified() {
            return Err(ConnectError::Unaddressable);
        }
        if local.port == 0 {
            return Err(ConnectError::Unaddressable);
        }
        match local.addr {
            None => checked_source(cx.get_source_address(&remote.addr), remote, local.port),
            Some(addr) => {
                if addr.is_unspecified() {
                    return Err(ConnectError::Unaddressable);
                }
                checked_source(Some(addr), remote, local.port)
            }
        }
    }

    fn begin_to_connect(&mut self, tuple: Tuple, word: u32) {
        self.reset();
        self.state = State::SynSent;
        self.tuple = Some(tuple);
        self.local_seq_no = TcpSeqNumber(word);
        self.remote_last_seq = TcpSeqNumber(word);
    }

    pub(crate) fn connect<C: Context>(
        &mut self,
        cx: &mut C,
        remote: IpEndpoint,
        local: IpListenEndpoint,
    ) -> Result<(), ConnectError> {
        match self.endpoints(cx, remote, local) {
            Err(e) => Err(e),
            Ok(tuple) => {
                let word = cx.rand_u32();
                self.begin_to_connect(tuple, word);
                Ok(())
            }
        }
    }
}

// The two endpoints, where there is an address of the remote one's version.
fn checked_source(source: Option<IpAddress>, remote: IpEndpoint, port: u16) -> Result<Tuple, ConnectError> {
    match source {
        None => Err(ConnectError::Unaddressable),
        Some(addr) => {
            if addr.version() != remote.addr.version() {
                return Err(ConnectError::Unaddressable);
            }
            Ok(Tuple { local: IpEndpoint { addr, port }, remote })
        }
    }
}
