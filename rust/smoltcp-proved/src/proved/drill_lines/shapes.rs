// Made from crates/drill_lines/src/shapes.rt by rust/translate: change it there.
//! The lines that a drill may have: their first words, and what stands behind those.

use crate::proved::drill_lines::request::{Bytes, Counted, Optional, Plain, Switch};

/// How the words behind the first are read.
#[derive(Clone, Copy)]
pub enum Form {
    Example,
    Clock,
    Word,
    Tcp,
    Udp,
    Icmp,
    Raw,
    Plain(Plain),
    Switch(Switch),
    Counted(Counted),
    Optional(Optional),
    Bytes(Bytes),
    Listen,
    Bind,
    Congestion,
    Rules,
    Checksums,
    Ends,
    Take,
    Deliver,
    Line,
    Expect,
}

impl Form {
    /// The form of the lines that begin with this word.
    pub fn of_word(name: &[u8]) -> Option<Form> {
        if let Some(form) = Form::of_socket(name) {
            return Some(form);
        }
        match Form::of_call(name) {
            Some(form) => Some(form),
            None => Form::of_setting(name),
        }
    }

    // Of the sockets of an example, and what comes to them.
    fn of_socket(name: &[u8]) -> Option<Form> {
        match name {
            word if word == b"example".as_slice() => Some(Form::Example),
            word if word == b"tcp".as_slice() => Some(Form::Tcp),
            word if word == b"udp".as_slice() => Some(Form::Udp),
            word if word == b"icmp".as_slice() => Some(Form::Icmp),
            word if word == b"raw".as_slice() => Some(Form::Raw),
            word if word == b"clock".as_slice() => Some(Form::Clock),
            word if word == b"word".as_slice() => Some(Form::Word),
            word if word == b"ends".as_slice() => Some(Form::Ends),
            word if word == b"take".as_slice() => Some(Form::Take),
            word if word == b"deliver".as_slice() => Some(Form::Deliver),
            word if word == b"expect".as_slice() => Some(Form::Expect),
            word if word == b">".as_slice() => Some(Form::Line),
            _ => None,
        }
    }

    // Of calls.
    fn of_call(name: &[u8]) -> Option<Form> {
        match name {
            word if word == b"listen".as_slice() => Some(Form::Listen),
            word if word == b"bind".as_slice() => Some(Form::Bind),
            word if word == b"connect".as_slice() => Some(Form::Counted(Counted::Connect)),
            word if word == b"close".as_slice() => Some(Form::Plain(Plain::Close)),
            word if word == b"abort".as_slice() => Some(Form::Plain(Plain::Abort)),
            word if word == b"send".as_slice() => Some(Form::Bytes(Bytes::Send)),
            word if word == b"send-hex".as_slice() => Some(Form::Bytes(Bytes::SendHex)),
            word if word == b"fill".as_slice() => Some(Form::Counted(Counted::Fill)),
            word if word == b"write".as_slice() => Some(Form::Bytes(Bytes::Write)),
            word if word == b"recv".as_slice() => Some(Form::Counted(Counted::Recv)),
            word if word == b"peek".as_slice() => Some(Form::Counted(Counted::Peek)),
            word if word == b"dispatch".as_slice() => Some(Form::Counted(Counted::Dispatch)),
            word if word == b"fail".as_slice() => Some(Form::Counted(Counted::Fail)),
            word if word == b"gone".as_slice() => Some(Form::Counted(Counted::Gone)),
            word if word == b"poll".as_slice() => Some(Form::Counted(Counted::Poll)),
            _ => None,
        }
    }

    // Of settings, and what a socket says of itself.
    fn of_setting(name: &[u8]) -> Option<Form> {
        match name {
            word if word == b"nagle".as_slice() => Some(Form::Switch(Switch::Nagle)),
            word if word == b"pause".as_slice() => Some(Form::Switch(Switch::Pause)),
            word if word == b"timeout".as_slice() => Some(Form::Optional(Optional::Timeout)),
            word if word == b"ack-delay".as_slice() => Some(Form::Optional(Optional::AckDelay)),
            word if word == b"keep-alive".as_slice() => Some(Form::Optional(Optional::KeepAlive)),
            word if word == b"hop-limit".as_slice() => Some(Form::Optional(Optional::HopLimit)),
            word if word == b"timestamps".as_slice() => Some(Form::Optional(Optional::Timestamps)),
            word if word == b"path-mtu".as_slice() => Some(Form::Counted(Counted::PathMtu)),
            word if word == b"congestion".as_slice() => Some(Form::Congestion),
            word if word == b"rules".as_slice() => Some(Form::Rules),
            word if word == b"checksums".as_slice() => Some(Form::Checksums),
            word if word == b"state".as_slice() => Some(Form::Plain(Plain::State)),
            word if word == b"queues".as_slice() => Some(Form::Plain(Plain::Queues)),
            word if word == b"settings".as_slice() => Some(Form::Plain(Plain::Settings)),
            word if word == b"endpoints".as_slice() => Some(Form::Plain(Plain::Endpoints)),
            word if word == b"measures".as_slice() => Some(Form::Plain(Plain::Measures)),
            _ => None,
        }
    }
}

/// A kind of line: its first word, and what stands behind that.
#[derive(Clone, Copy)]
pub struct Shape(pub &'static str, pub &'static str);

/// All kinds of lines.
pub const SHAPES: &[Shape] = &[
    Shape("example", "NAME"),
    Shape("tcp", "S RX TX"),
    Shape("udp", "S PLACES BYTES PLACES BYTES"),
    Shape("icmp", "S PLACES BYTES PLACES BYTES"),
    Shape("raw", "S VERSION PROTOCOL PLACES BYTES"),
    Shape("clock", "MS"),
    Shape("word", "WORD"),
    Shape("ends", "S HERE PEER"),
    Shape("listen", "S, or listen S WHERE"),
    Shape("bind", "S, or bind S WHERE"),
    Shape("connect", "S WORD"),
    Shape("close", "S"),
    Shape("abort", "S"),
    Shape("send", "S TEXT, or send S"),
    Shape("send-hex", "S HEX, or send-hex S"),
    Shape("fill", "S COUNT"),
    Shape("write", "S TEXT, or write S"),
    Shape("recv", "S SIZE"),
    Shape("peek", "S SIZE"),
    Shape("nagle", "S on, or nagle S off"),
    Shape("pause", "S on, or pause S off"),
    Shape("timeout", "S MS, or timeout S -"),
    Shape("ack-delay", "S MS, or ack-delay S -"),
    Shape("keep-alive", "S MS, or keep-alive S -"),
    Shape("hop-limit", "S N, or hop-limit S -"),
    Shape("timestamps", "S WORD, or timestamps S -"),
    Shape("path-mtu", "S BYTES"),
    Shape("congestion", "S reno, or congestion S none"),
    Shape("rules", "S rfc, or rules S smoltcp"),
    Shape("checksums", "S both, or rx, tx or none"),
    Shape("state", "S"),
    Shape("queues", "S"),
    Shape("settings", "S"),
    Shape("endpoints", "S"),
    Shape("measures", "S"),
    Shape("poll", "S MS"),
    Shape("dispatch", "S MS"),
    Shape("fail", "S MS"),
    Shape("gone", "S MS"),
    Shape("take", "S SEGMENT"),
    Shape("deliver", "S last S, or deliver S N S"),
    Shape("expect", "S STATE, or expect S poll MOMENT"),
    Shape(">", "LINE"),
];

/// All kinds of lines, for whoever goes over them: a function that names a long table itself is proved at its length.
pub fn shapes() -> &'static [Shape] {
    SHAPES
}

/// The kind of the lines that begin with this word.
pub fn shape_of(name: &[u8]) -> Option<Shape> {
    for shape in shapes() {
        if shape.0.as_bytes() == name {
            return Some(*shape);
        }
    }
    None
}
