// Made from crates/sock_core/src/cubic.rt by rust/translate: change it there.
//! CUBIC (RFC 9438): after a loss the window returns to where it was along a cubic function of time.

use crate::proved::net_base::time::Instant;
use crate::proved::sock_core::congestion::Controller;
use crate::proved::sock_core::cube_root::{cube, cube_root};
use crate::proved::sock_core::reno::Reno;
use crate::proved::sock_core::rtte::RttEstimator;

// The cube of 2^20 fits 64 bits; so many milliseconds are 17 minutes.
const LONGEST: u64 = 1 << 20;

// C is 0.4 segments a second cubed: a segment for each 2.5 * 10^9 cubed milliseconds.
const CUBED_MILLIS_OF_A_SEGMENT: u64 = 2_500_000_000;

/// CUBIC (RFC 9438), where slow start, fast recovery and the bounds of the window are Reno's. Its threshold is seven
/// tenths of what was in flight, and congestion avoidance leads by a cubic function of time to the window that the last
/// reduction found, and beyond it; at least to what Reno would have.
#[derive(Debug, Clone, Copy)]
pub struct Cubic {
    reno: Reno,
    epoch: Instant,
    w_max: u32,
    w_est: u32,
    k: u32,
}

// What does not fit 32 bits is cut to the greatest.
fn short(n: usize) -> u32 {
    n.min(u32::MAX as usize) as u32
}

// How many bytes of segments the cubic function rises in so many milliseconds.
fn rise(mss: usize, millis: u64) -> u64 {
    let thousandths = cube(millis.min(LONGEST)) / (CUBED_MILLIS_OF_A_SEGMENT / 1000);
    thousandths.saturating_mul(mss as u64) / 1000
}

// In how many milliseconds it rises by so many bytes.
fn time_to_rise(mss: usize, bytes: u32) -> u32 {
    let cubed = (bytes as u64).saturating_mul(CUBED_MILLIS_OF_A_SEGMENT) / (mss as u64).max(1);
    cube_root(cubed.min(i64::MAX as u64)) as u32
}

impl Cubic {
    /// A new Reno, and no reduction yet.
    pub fn new() -> Cubic {
        Cubic { reno: Reno::new(), epoch: Instant::ZERO, w_max: 0, w_est: 0, k: 0 }
    }

    /// The window, in bytes, at which slow start ends.
    pub fn ssthresh(&self) -> usize {
        self.reno.ssthresh()
    }

    /// How many bytes may be in the network in a fast recovery that counts what is there (RFC 6675, section 5). Else
    /// the window.
    pub fn recovery_window(&self) -> usize {
        self.reno.recovery_window()
    }

    /// A loss was none: window and threshold are at least these, as before it.
    pub fn undo(&mut self, window: usize, threshold: usize) {
        self.reno.undo(window, threshold);
        self.w_est = 0;
    }

    // W_cubic, so many milliseconds after the epoch began.
    fn w_cubic(&self, millis: u64) -> u64 {
        let mss = self.reno.mss();
        if millis < self.k as u64 {
            (self.w_max as u64).saturating_sub(rise(mss, self.k as u64 - millis))
        } else {
            self.w_max as u64 + rise(mss, millis - self.k as u64)
        }
    }

    // Congestion avoidance begins, unless it has.
    fn begin_epoch(&mut self, now: Instant) {
        if self.w_est != 0 {
            return;
        }
        let window = short(self.reno.window());
        self.k = time_to_rise(self.reno.mss(), self.w_max.saturating_sub(window));
        self.w_max = self.w_max.max(window);
        self.w_est = window;
        self.epoch = now;
    }

    // Milliseconds since the epoch began; none where the clock went back.
    fn elapsed(&self, now: Instant) -> u64 {
        if now.micros < self.epoch.micros { 0 } else { (now - self.epoch).total_millis() }
    }

    // How far W_est goes for `len` acknowledged bytes.
    fn est_step(&self, len: usize) -> usize {
        let before = (self.reno.ssthresh() / 7).saturating_mul(10);
        let per = if (self.w_est as usize) < before { 9 } else { 17 };
        let window = self.reno.window();
        let bytes = self.reno.mss().saturating_mul(per).saturating_mul(len.min(window));
        (bytes / 17 / window.max(1)).max(1)
    }

    // How far the window grows.
    fn growth(&self, millis: u64, rtt: u32, len: usize) -> usize {
        let w_est = self.w_est as usize;
        if self.w_cubic(millis) < w_est as u64 {
            w_est.saturating_sub(self.reno.window())
        } else {
            self.reno.step_towards(self.w_cubic(millis + rtt as u64), len)
        }
    }

    fn advance(&mut self, millis: u64, rtt: u32, len: usize) {
        self.w_est = short(self.w_est as usize + self.est_step(len));
        let more = self.growth(millis, rtt, len);
        self.reno.grow(more);
    }

    fn avoid(&mut self, now: Instant, len: usize, rtt: &RttEstimator) {
        self.begin_epoch(now);
        let millis = self.elapsed(now);
        self.advance(millis, rtt.srtt(), len);
    }

    // Bytes are acknowledged; as Reno the window would grow so far.
    fn grow(&mut self, now: Instant, len: usize, more: usize, rtt: &RttEstimator) {
        if self.reno.avoids() {
            self.avoid(now, len, rtt);
        } else {
            self.reno.grow(more);
        }
    }

    // Seven tenths of what is in flight, and at least two segments.
    fn reduced(&self, in_flight: usize) -> usize {
        (in_flight.saturating_mul(7) / 10).max(self.reno.mss().saturating_mul(2))
    }

    // W_max, once what is in flight was too much.
    fn converged(&self, in_flight: usize) -> u32 {
        if in_flight < self.w_max as usize {
            short(in_flight.saturating_mul(17) / 20)
        } else {
            short(in_flight)
        }
    }
}

impl Controller for Cubic {
    fn window(&self) -> usize {
        self.reno.window()
    }

    fn set_remote_window(&mut self, remote_window: usize) {
        self.reno.set_remote_window(remote_window);
    }

    fn on_ack(&mut self, now: Instant, len: usize, _in_flight: usize, rtt: &RttEstimator) {
        if len > 0 {
            let more = self.reno.growth(len);
            self.grow(now, len, more, rtt);
        }
    }

    fn on_partial_ack(&mut self, now: Instant, len: usize) {
        self.reno.on_partial_ack(now, len);
    }

    fn on_bytes_acked(&mut self, now: Instant, len: usize, careful: bool, rtt: &RttEstimator) {
        if len > 0 {
            let more = self.reno.growth_in_bytes(len, careful);
            self.grow(now, len, more, rtt);
        }
    }

    fn open(&mut self, mss: usize) {
        self.reno.open(mss);
        self.w_max = 0;
        self.w_est = 0;
    }

    fn restart(&mut self) {
        self.reno.restart();
        self.w_est = 0;
    }

    fn on_dup_ack(&mut self, now: Instant, len: usize, in_flight: usize) {
        self.reno.on_dup_ack(now, len, in_flight);
    }

    fn on_rto(&mut self, _now: Instant, in_flight: usize) {
        let threshold = self.reduced(in_flight);
        self.reno.begin_anew(threshold);
        self.w_max = 0;
        self.w_est = 0;
    }

    fn on_loss(&mut self, _now: Instant, in_flight: usize) {
        if self.reno.recovers() {
            return;
        }
        let threshold = self.reduced(in_flight);
        self.w_max = self.converged(in_flight);
        self.w_est = 0;
        self.reno.recover(threshold);
    }

    fn pre_transmit(&mut self, _now: Instant) {}

    fn post_transmit(&mut self, _now: Instant, _len: usize) {}

    fn set_mss(&mut self, mss: usize) {
        self.reno.set_mss(mss);
    }
}
