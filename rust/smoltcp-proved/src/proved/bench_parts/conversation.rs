// Made from crates/bench_parts/src/conversation.rt by rust/translate: change it there.
//! The conversation that a socket of a host has: a request, an answer, and both close.

use crate::proved::bench_parts::clock::Clock;
use crate::proved::bench_parts::digest::Digest;
use crate::proved::bench_parts::random::Random;
use crate::proved::smoltcp_socket::tcp::{RecvError, Socket, State};
use crate::proved::smoltcp_socket::wire::IpListenEndpoint;

// How many pieces are read at one moment.
const PIECES: u32 = 16;

// How many pieces are written at one moment, where all is.
const WRITTEN: u32 = 64;

// How many bytes of a request say how long it is, and how long its answer.
const HEAD: usize = 8;

/// The port of the service.
pub const SERVICE: u16 = 80;

/// What a socket is for.
#[derive(Debug, Clone, Copy, PartialEq, Eq)]
pub enum Role {
    /// It answers requests.
    Server,
    /// It makes requests.
    Client,
    /// It is connected, and says nothing.
    Sleeper,
}

/// The service, at every address.
pub fn service() -> IpListenEndpoint {
    IpListenEndpoint { addr: None, port: SERVICE }
}

/// A conversation.
#[derive(Debug)]
pub struct Talk {
    pub role: Role,
    // how long the request and the answer are, where that is known
    request: usize,
    answer: usize,
    sent: usize,
    received: usize,
}

impl Talk {
    /// No conversation.
    pub fn new(role: Role) -> Talk {
        Talk { role, request: 0, answer: 0, sent: 0, received: 0 }
    }

    /// Begins one of so many bytes.
    pub fn begin(&mut self, request: usize, answer: usize) {
        self.request = request;
        self.answer = answer;
        self.sent = 0;
        self.received = 0;
    }

    /// Adds what came of the conversation.
    pub fn add_to(&self, digest: &mut Digest) {
        digest.number(self.request as u64);
        digest.number(self.answer as u64);
        digest.number(self.sent as u64);
        digest.number(self.received as u64);
    }

    /// Lets the application read and write.
    pub fn serve(
        &mut self,
        socket: &mut Socket<'_, Clock>,
        scratch: &mut [u8],
        source: &[u8],
        random: &mut Random,
        digest: &mut Digest,
    ) {
        match (self.role, socket.state()) {
            (_, State::Closed | State::Listen | State::SynSent | State::SynReceived) => {}
            (Role::Server, _) => self.answer(socket, scratch, source, random, digest),
            (Role::Client, _) => self.ask(socket, scratch, source, random, digest),
            (Role::Sleeper, _) => {}
        }
    }

    /// Serves the socket as `serve`, and writes what it has to send whole, or until the socket takes nothing.
    pub fn serve_whole(
        &mut self,
        socket: &mut Socket<'_, Clock>,
        scratch: &mut [u8],
        source: &[u8],
        random: &mut Random,
        digest: &mut Digest,
    ) {
        let before = self.sent;
        self.serve(socket, scratch, source, random, digest);
        if self.sent > before {
            self.send_rest(socket, source, random);
        }
    }

    // Piece after piece of what is left, and a server closes behind it.
    fn send_rest(&mut self, socket: &mut Socket<'_, Clock>, source: &[u8], random: &mut Random) {
        let total = match self.role {
            Role::Server => self.answer,
            _ => self.request,
        };
        for _ in 0..WRITTEN {
            let before = self.sent;
            self.send(socket, total, source, random);
            if self.sent == before {
                break;
            }
        }
        if self.role == Role::Server && self.sent >= total {
            socket.close();
        }
    }

    fn ask(
        &mut self,
        socket: &mut Socket<'_, Clock>,
        scratch: &mut [u8],
        source: &[u8],
        random: &mut Random,
        digest: &mut Digest,
    ) {
        if self.sent == 0 {
            let head = head_of(self.request, self.answer);
            self.sent = socket.send_slice(&head).unwrap_or(0);
        }
        self.send(socket, self.request, source, random);
        for _ in 0..PIECES {
            match socket.recv_slice(scratch) {
                Ok(0) => break,
                Ok(count) => {
                    self.received = self.received.saturating_add(count);
                    digest.bytes(&scratch[..count.min(scratch.len())]);
                }
                Err(RecvError::Finished) => {
                    socket.close();
                    break;
                }
                Err(_) => break,
            }
        }
    }

    fn answer(
        &mut self,
        socket: &mut Socket<'_, Clock>,
        scratch: &mut [u8],
        source: &[u8],
        random: &mut Random,
        digest: &mut Digest,
    ) {
        for _ in 0..PIECES {
            let Ok(count) = socket.recv_slice(scratch) else {
                break;
            };
            if count == 0 {
                break;
            }
            self.read(&scratch[..count.min(scratch.len())], digest);
        }
        if self.received > 0 && self.received >= self.request {
            self.send(socket, self.answer, source, random);
            if self.sent >= self.answer {
                socket.close();
            }
        } else if socket.state() == State::CloseWait {
            socket.close();
        }
    }

    fn read(&mut self, bytes: &[u8], digest: &mut Digest) {
        if self.received == 0 && bytes.len() >= HEAD {
            self.request = bytes[0] as usize + 256 * bytes[1] as usize;
            self.answer = bytes[2] as usize + 256 * bytes[3] as usize;
        }
        self.received = self.received.saturating_add(bytes.len());
        digest.bytes(bytes);
    }

    // Sends what is left of so many bytes, as far as the socket takes it.
    fn send(&mut self, socket: &mut Socket<'_, Clock>, total: usize, source: &[u8], random: &mut Random) {
        let left = total.saturating_sub(self.sent);
        if left == 0 {
            return;
        }
        let piece = random.piece(source, left);
        let count = socket.send_slice(piece).unwrap_or(0);
        self.sent = self.sent.saturating_add(count);
    }
}

fn head_of(request: usize, answer: usize) -> [u8; HEAD] {
    [
        (request % 256) as u8,
        (request / 256 % 256) as u8,
        (answer % 256) as u8,
        (answer / 256 % 256) as u8,
        0,
        0,
        0,
        0,
    ]
}
