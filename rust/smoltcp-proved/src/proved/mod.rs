// Made by rust/translate.
//! The proved sources, a module for each crate, without their contracts.
// What only clauses name is unused here, and some forms are those that a prover reads best.
#![allow(unused_imports, unused_variables, unused_must_use, dead_code, clippy::all)]
#![allow(missing_docs, missing_debug_implementations)]
#[cfg(feature = "programs")]
pub mod bench_parts;
pub mod control_wire;
#[cfg(feature = "programs")]
pub mod drill_lines;
pub mod host_bounds;
pub mod host_context;
pub mod host_cookies;
pub mod host_groups;
pub mod host_guard;
pub mod host_index;
#[cfg(feature = "alloc")]
pub mod host_link;
pub mod ip_extensions;
pub mod ip_wire;
pub mod net_base;
pub mod net_host;
#[cfg(feature = "programs")]
pub mod pair_core;
#[cfg(feature = "programs")]
pub mod pcap;
#[cfg(feature = "programs")]
pub mod script_chart;
#[cfg(feature = "programs")]
pub mod script_program;
pub mod segment_wire;
pub mod smoltcp_socket;
pub mod sock_core;
pub mod sock_dgram;
#[cfg(feature = "programs")]
pub mod sock_pair;
pub mod sock_tcp;
#[cfg(feature = "programs")]
pub mod socket_script;
#[cfg(feature = "programs")]
pub mod tcp_laws;
