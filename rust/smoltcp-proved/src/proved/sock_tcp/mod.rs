// Made from crates/sock_tcp/src/lib.rt by rust/translate: change it there.
//! The TCP socket of smoltcp (RFC 9293).
//!
//! What to read first, some twenty lines each, in `specs`:
//!
//! - `advance_in` in `Advance.antt`: the state table, a row for each state and control bit.
//! - `processed` and what stands above it in `Process.antt`, read from the end: the rules of `process` in their order.
//! - `checked_in` in `Rfc/Checks.antt`, `rfc_refused` in `Rfc/Refused.antt`, `recovered` in `Rfc/Recovery.antt`: what
//!   `Rules::Rfc` does before `processed`, in place of a row of it, and after it.
//! - `Accepts` in `Process.antt` and `verdict_of` in `Verdict.antt`: which segments get that far.
//! - `content` in `Content.antt` and `before_emit` in `Begin.antt`: what `dispatch` sends, and what it does before.
//! - `View` in `View.antt`: the fields that all of these speak of.
//!
//! The other files are the parts of these. What follows for any list of calls is in the crate `tcp_laws`.

pub mod acked;
pub mod advance;
mod begin;
mod checks;
mod close;
mod content;
pub mod control_block;
mod dispatch;
mod due;
mod duplicates;
pub mod emission;
pub mod ended;
pub mod error;
pub mod explain;
pub mod explained;
pub mod generator;
mod idle;
pub mod kept;
pub mod measures;
pub mod negotiated;
pub mod next;
mod numbers;
mod open;
mod own_window;
mod path_mtu;
mod peer_window;
mod pipe;
pub mod poll;
mod probe_acks;
mod process;
mod queues;
pub mod reasons;
pub mod recovery;
mod refused;
mod reordering;
mod reply;
mod round_trips;
pub mod rules;
mod sacked;
pub mod scoreboard;
pub mod settings;
mod small_segments;
pub mod socket;
pub mod state;
mod steps;
mod tail;
pub mod timer;
pub mod tuple;
pub mod undo;
mod user_timeout;
pub mod verdict;
mod waiting;
pub mod window;

pub use control_block::ControlBlock;
pub use duplicates::Response;
pub use ended::Ended;
pub use error::{ConnectError, ListenError, RecvError, SendError};
pub use explain::Row;
pub use generator::{Generator, TsvalSource};
pub use negotiated::Negotiated;
pub use next::Reason;
pub use reply::Reply;
pub use rules::{Rules, RulesError};
pub use settings::CongestionControl;
pub use socket::{Socket, SocketBuffer};
pub use state::State;
