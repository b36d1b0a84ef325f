// Made from crates/tcp_laws/src/lib.rt by rust/translate: change it there.
//! What is promised of one TCP socket beyond its case tables, as laws: functions whose contracts are the laws.
//!
//! What to read first, in `specs`: `Promised` in `SocketRun.antt`, with `streams::one_socket_keeps_its_streams`: what
//! holds after any list of calls. What is promised of two sockets is in `docs/THEOREM.md`.

pub mod loss;
pub mod poll;
pub mod streams;
pub mod windows;
