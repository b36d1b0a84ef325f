// Made from crates/socket_script/src/capture.rt by rust/translate: change it there.
//! Packets as the records of a pcap stream.

use crate::kit::alloc::{AllocError, Global};
use crate::kit::io::Write;
use crate::proved::host_context::Outbox;
use crate::proved::ip_wire::ChecksumCapabilities;
use crate::proved::pcap::stream::{LONGEST, RECORD, put_record_header};
use crate::proved::socket_script::memory::Halt;
use crate::proved::socket_script::packet::{Kind, Packet};
use crate::proved::socket_script::tally::{Unwritten, put};

/// Writes the record of a packet that came or went at this moment. One that no packet of IP carries is left out.
pub fn put_packet<W: Write>(alloc: Global, millis: u32, packet: &Packet, writer: &mut W) -> Result<(), Halt> {
    let mut outbox = Outbox::new(alloc);
    if add(&mut outbox, packet).is_err() {
        return Err(Halt::Memory);
    }
    for bytes in outbox.take() {
        put_record(millis, bytes.as_slice(), writer)?;
    }
    Ok(())
}

// Puts the bytes of the packet into the outbox.
fn add(outbox: &mut Outbox, packet: &Packet) -> Result<(), AllocError> {
    let caps = ChecksumCapabilities::default();
    let (ip, payload) = (&packet.ip, packet.payload.as_slice());
    match &packet.kind {
        Kind::Tcp(header) => {
            let _is_carried = outbox.emit_tcp(ip, &header.with_payload(payload), &caps)?;
        }
        Kind::Udp(repr) => {
            let _is_carried = outbox.emit_udp(ip, repr, payload, &caps)?;
        }
        Kind::Icmp | Kind::Raw => outbox.emit_raw(ip, payload, &caps)?,
    }
    Ok(())
}

fn put_record<W: Write>(millis: u32, bytes: &[u8], writer: &mut W) -> Result<(), Unwritten> {
    if bytes.len() > LONGEST {
        return Ok(());
    }
    let mut header = [0u8; RECORD];
    put_record_header(&mut header, millis as u64 * 1000, bytes.len());
    put(writer, &header)?;
    put(writer, bytes)
}
