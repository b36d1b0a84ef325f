// Made from crates/sock_pair/src/script/play.rt by rust/translate: change it there.
//! The run of a script.

use crate::kit::alloc::{AllocError, Global};
use crate::kit::{Vec, vec};
use crate::proved::ip_wire::{IpAddress, IpEndpoint, Ipv4Address};
use crate::proved::pair_core::{Event, Pair, Setup};
use crate::proved::sock_pair::script::Script;
use crate::proved::sock_pair::script::end::End;
use crate::proved::sock_pair::script::output::{write_outcomes, write_sides};
use crate::proved::sock_pair::script::stream::{Sink, Source};
use crate::proved::sock_tcp::{SocketBuffer, TsvalSource};

const ENDPOINT_A: IpEndpoint =
    IpEndpoint { addr: IpAddress::Ipv4(crate::kit::ipv4([10, 0, 0, 1])), port: 49152 };

const ENDPOINT_B: IpEndpoint =
    IpEndpoint { addr: IpAddress::Ipv4(crate::kit::ipv4([10, 0, 0, 2])), port: 80 };

/// All bytes of a source. `Read` where the source failed, `Memory` where a growth was refused.
pub fn read_all<R: Source>(alloc: Global, reader: &mut R) -> Result<Vec<u8>, End> {
    let mut text = Vec::new(alloc);
    let mut buf = [0u8; 4096];
    loop {
        let Ok(count) = reader.read(&mut buf) else {
            return Err(End::Read);
        };
        if count == 0 {
            return Ok(text);
        }
        if let Err(_) = text.extend_from_slice(&buf[..count]) {
            return Err(End::Memory);
        }
    }
}

/// Runs a script and writes its lines.
pub fn play<W: Sink>(alloc: Global, script: &Script, writer: &mut W) -> End {
    let Ok(buffers) = Buffers::new(alloc, script.sizes) else {
        return End::Memory;
    };
    let Buffers { mut arx, mut atx, mut brx, mut btx } = buffers;
    let (arx, atx) = (arx.as_mut_slice(), atx.as_mut_slice());
    let (brx, btx) = (brx.as_mut_slice(), btx.as_mut_slice());
    let mut pair = begin(alloc, arx, atx, brx, btx, script.limit);
    run_events(alloc, &mut pair, script.events.as_slice(), writer)
}

// Runs the events and writes their lines and, where all were done, the closing lines.
fn run_events<W: Sink>(
    alloc: Global,
    pair: &mut Pair<'_, NoTimestamps>,
    events: &[Event],
    writer: &mut W,
) -> End {
    let mut outcomes = Vec::new(alloc);
    let ran = pair.run(events, &mut outcomes);
    let written = write_outcomes(writer, pair.segments(), outcomes.as_slice());
    match (written, ran) {
        (Err(_), _) => End::Write,
        (Ok(()), Err(_)) => End::Memory,
        (Ok(()), Ok(())) => match write_sides(writer, pair) {
            Ok(()) => End::Done,
            Err(_) => End::Write,
        },
    }
}

/// The type of the source of timestamps that a script's sockets do not have.
#[derive(Debug, Clone, Copy)]
pub struct NoTimestamps;

impl TsvalSource for NoTimestamps {
    fn tsval(&self) -> u32 {
        0
    }
}

/// The bytes that the buffers of a script's sockets stand in.
pub struct Buffers {
    /// Those of a's receive buffer.
    pub arx: Vec<u8>,
    /// Those of a's transmit buffer.
    pub atx: Vec<u8>,
    /// Those of b's receive buffer.
    pub brx: Vec<u8>,
    /// Those of b's transmit buffer.
    pub btx: Vec<u8>,
}

impl Buffers {
    /// Zero bytes, as many as a script's `sizes` say: at most 1048576 in each. Refused where memory ran out.
    pub fn new(alloc: Global, sizes: [usize; 4]) -> Result<Buffers, AllocError> {
        let [arx, atx, brx, btx] = sizes;
        Ok(Buffers {
            arx: vec![in alloc; 0u8; arx]?,
            atx: vec![in alloc; 0u8; atx]?,
            brx: vec![in alloc; 0u8; brx]?,
            btx: vec![in alloc; 0u8; btx]?,
        })
    }
}

/// The two closed sockets of a script over these buffers, each of at most 1048576 bytes: a at 10.0.0.1:49152 and b at
/// 10.0.0.2:80, without timestamps. Each side may accept `limit` bytes, less than 2^29, where there is a limit.
pub fn begin<'a>(
    alloc: Global,
    arx: &'a mut [u8],
    atx: &'a mut [u8],
    brx: &'a mut [u8],
    btx: &'a mut [u8],
    limit: Option<u32>,
) -> Pair<'a, NoTimestamps> {
    let a = setup(arx, atx, ENDPOINT_A);
    let b = setup(brx, btx, ENDPOINT_B);
    Pair::without_timestamps(alloc, a, b, limit)
}

fn setup<'a>(rx: &'a mut [u8], tx: &'a mut [u8], endpoint: IpEndpoint) -> Setup<'a> {
    Setup { rx: SocketBuffer::new(rx), tx: SocketBuffer::new(tx), endpoint, generator: None }
}
