// Made from crates/drill_lines/src/fields.rt by rust/translate: change it there.
//! Segments, datagrams and messages that are written by hand.

use crate::proved::control_wire::{TcpControl, TcpSeqNumber, TcpTimestampRepr};
use crate::proved::drill_lines::places::{address, endpoint, is_hex, octet, port, word32};
use crate::proved::drill_lines::wrong::{Read, Wrong, counted, meant};
use crate::proved::ip_wire::IpEndpoint;
use crate::proved::sock_pair::script::flags;
use crate::proved::sock_pair::script::values::{is_text, number};
use crate::proved::sock_pair::script::words::split_word;

/// The blocks of SACK.
type Ranges = [Option<(u32, u32)>; 3];

/// The longest payload of a packet.
pub const PAYLOAD: usize = 65535;

/// The bytes that a packet carries.
#[derive(Clone, Copy)]
pub enum Carried<'t> {
    /// None is named: as many bytes `x` as `len` says.
    Unnamed,
    /// These.
    Text(&'t [u8]),
    /// Those that these digits write.
    Hex(&'t [u8]),
}

/// What a line says of a packet.
#[derive(Clone, Copy)]
pub struct Fields<'t> {
    pub control: Option<TcpControl>,
    pub seq: u32,
    pub ack: Option<TcpSeqNumber>,
    pub win: u16,
    pub mss: Option<u16>,
    pub scale: Option<u8>,
    pub sack: bool,
    pub ranges: Ranges,
    pub timestamp: Option<TcpTimestampRepr>,
    pub len: Option<usize>,
    pub carried: Carried<'t>,
    pub from: Option<IpEndpoint>,
    pub to: Option<IpEndpoint>,
    pub hop: u8,
    pub protocol: Option<u8>,
}

const NONE: Fields<'static> = Fields {
    control: None,
    seq: 0,
    ack: None,
    win: 0,
    mss: None,
    scale: None,
    sack: false,
    ranges: [None, None, None],
    timestamp: None,
    len: None,
    carried: Carried::Unnamed,
    from: None,
    to: None,
    hop: 64,
    protocol: None,
};

/// The fields of a line, in any order; of those that stand twice the last. The control bits of a segment are those with
/// which it is printed.
pub fn read_fields(words: &[u8]) -> Read<Fields<'_>> {
    let mut said = Said { fields: NONE, bits: None };
    let mut rest = words;
    while let Some((word, values)) = split_word(rest) {
        rest = said.take(word, values)?;
    }
    let Said { fields, bits } = said;
    fields.check(bits)?;
    Ok(fields)
}

// What was said so far, and the word of the control bits.
#[derive(Clone, Copy)]
struct Said<'t> {
    fields: Fields<'t>,
    bits: Option<&'t [u8]>,
}

impl<'t> Said<'t> {
    // Reads control bits, or a key with its values, and answers what stands behind them.
    fn take(&mut self, word: &'t [u8], values: &'t [u8]) -> Read<&'t [u8]> {
        if let Some(control) = control_of(word) {
            self.fields.control = Some(control);
            self.bits = Some(word);
            return Ok(values);
        }
        let key = meant(key_of(word))?;
        self.read(key, values)
    }

    // Reads the values of a key, and answers what stands behind them.
    fn read(&mut self, key: Key, values: &'t [u8]) -> Read<&'t [u8]> {
        match key.values() {
            Values::None => {
                self.fields.sack = true;
                Ok(values)
            }
            Values::Two => {
                let (first, rest) = counted(split_word(values))?;
                let (second, rest) = counted(split_word(rest))?;
                meant(self.fields.set_two(key, first, second))?;
                Ok(rest)
            }
            Values::One => {
                let (word, rest) = counted(split_word(values))?;
                meant(self.fields.set(key, word))?;
                Ok(rest)
            }
        }
    }
}

// The control bits that are printed so.
fn control_of(word: &[u8]) -> Option<TcpControl> {
    if is_flags(TcpControl::None, word) {
        Some(TcpControl::None)
    } else if is_flags(TcpControl::Psh, word) {
        Some(TcpControl::Psh)
    } else if is_flags(TcpControl::Fin, word) {
        Some(TcpControl::Fin)
    } else if is_flags(TcpControl::Syn, word) {
        Some(TcpControl::Syn)
    } else if is_flags(TcpControl::Rst, word) {
        Some(TcpControl::Rst)
    } else {
        None
    }
}

// Whether a segment with these bits is printed so.
fn is_flags(control: TcpControl, word: &[u8]) -> bool {
    flags(control, false).as_bytes() == word || flags(control, true).as_bytes() == word
}

// What a field says of the packet.
#[derive(Clone, Copy)]
enum Key {
    Seq,
    Ack,
    Win,
    Mss,
    Scale,
    Sack,
    Range,
    Stamp,
    Len,
    Data,
    Bytes,
    From,
    To,
    Hop,
    Protocol,
}

fn key_of(word: &[u8]) -> Option<Key> {
    match word {
        key if key == b"seq".as_slice() => Some(Key::Seq),
        key if key == b"ack".as_slice() => Some(Key::Ack),
        key if key == b"win".as_slice() => Some(Key::Win),
        key if key == b"mss".as_slice() => Some(Key::Mss),
        key if key == b"scale".as_slice() => Some(Key::Scale),
        key if key == b"sack".as_slice() => Some(Key::Sack),
        key if key == b"range".as_slice() => Some(Key::Range),
        key if key == b"ts".as_slice() => Some(Key::Stamp),
        key if key == b"len".as_slice() => Some(Key::Len),
        key if key == b"data".as_slice() => Some(Key::Data),
        key if key == b"bytes".as_slice() => Some(Key::Bytes),
        key if key == b"from".as_slice() => Some(Key::From),
        key if key == b"to".as_slice() => Some(Key::To),
        key if key == b"hop".as_slice() => Some(Key::Hop),
        key if key == b"protocol".as_slice() => Some(Key::Protocol),
        _ => None,
    }
}

// How many values a key has.
#[derive(Clone, Copy)]
enum Values {
    None,
    One,
    Two,
}

impl Key {
    fn values(self) -> Values {
        match self {
            Key::Sack => Values::None,
            Key::Range | Key::Stamp => Values::Two,
            _ => Values::One,
        }
    }
}

impl<'t> Fields<'t> {
    // The bits are printed as they are written, and the payload is as long as it is said to be.
    fn check(&self, bits: Option<&[u8]>) -> Read<()> {
        if self.is_printed_so(bits) && self.is_as_long() { Ok(()) } else { Err(Wrong::Word) }
    }

    fn is_printed_so(&self, bits: Option<&[u8]>) -> bool {
        match (self.control, bits) {
            (Some(control), Some(bits)) => flags(control, self.ack.is_some()).as_bytes() == bits,
            _ => true,
        }
    }

    fn is_as_long(&self) -> bool {
        let len = match self.carried {
            Carried::Unnamed => return true,
            Carried::Text(text) => text.len(),
            Carried::Hex(digits) => digits.len() / 2,
        };
        len <= PAYLOAD
            && match self.len {
                None => true,
                Some(said) => said == len,
            }
    }

    // A key with two values; none where they are not of its form.
    fn set_two(&mut self, key: Key, first: &[u8], second: &[u8]) -> Option<()> {
        let (first, second) = (word32(first)?, word32(second)?);
        match key {
            Key::Range => self.ranges = with_range(self.ranges, (first, second))?,
            Key::Stamp => {
                self.timestamp = Some(TcpTimestampRepr { tsval: first, tsecr: second });
            }
            _ => return None,
        }
        Some(())
    }

    // A key with one value; none where the value is not of its form.
    fn set(&mut self, key: Key, word: &'t [u8]) -> Option<()> {
        match key {
            Key::Seq => self.seq = word32(word)?,
            Key::Ack => self.ack = ack(word)?,
            Key::Win => self.win = port(word)?,
            Key::Mss => self.mss = Some(port(word)?),
            Key::Scale => self.scale = Some(octet(word)?),
            Key::Len => self.len = Some(number(word, PAYLOAD)?),
            Key::Data if is_text(word) => self.carried = Carried::Text(word),
            Key::Bytes if is_hex(word) => self.carried = Carried::Hex(word),
            Key::From => self.from = Some(end(word)?),
            Key::To => self.to = Some(end(word)?),
            Key::Hop => self.hop = octet(word)?,
            Key::Protocol => self.protocol = Some(octet(word)?),
            _ => return None,
        }
        Some(())
    }
}

// One range more, of three at most.
fn with_range(ranges: Ranges, range: (u32, u32)) -> Option<Ranges> {
    match ranges {
        [None, _, _] => Some([Some(range), None, None]),
        [Some(first), None, _] => Some([Some(first), Some(range), None]),
        [Some(first), Some(second), None] => Some([Some(first), Some(second), Some(range)]),
        _ => None,
    }
}

// An acknowledgement number, or `-` for none.
fn ack(word: &[u8]) -> Option<Option<TcpSeqNumber>> {
    if word == b"-".as_slice() {
        return Some(None);
    }
    let number = word32(word)?;
    Some(Some(TcpSeqNumber(number)))
}

// An endpoint, or an address, with port 0.
fn end(word: &[u8]) -> Option<IpEndpoint> {
    if let Some(endpoint) = endpoint(word) {
        return Some(endpoint);
    }
    let addr = address(word)?;
    Some(IpEndpoint { addr, port: 0 })
}
