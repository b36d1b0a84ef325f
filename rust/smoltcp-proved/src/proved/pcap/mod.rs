// Made from crates/pcap/src/lib.rt by rust/translate: change it there.
//! Streams of packets in the pcap format, as tcpdump and Wireshark read and write them.

pub mod stream;
