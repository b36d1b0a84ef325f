// Made from crates/socket_script/src/play.rt by rust/translate: change it there.
//! The run of a drill.

use crate::kit::Vec;
use crate::kit::alloc::{AllocError, Global};
use crate::kit::io::Write;
use crate::proved::drill_lines::reader::{Numbered, Reader};
use crate::proved::drill_lines::request::{Call, Counted, Expected, Request, Which};
use crate::proved::drill_lines::room::Room;
use crate::proved::smoltcp_socket::Socket;
use crate::proved::sock_pair::script::ScriptError;
use crate::proved::socket_script::calls::perform;
use crate::proved::socket_script::chart::{Chart, Drawn};
use crate::proved::socket_script::clock::Clock;
use crate::proved::socket_script::getters::{served, state_name};
use crate::proved::socket_script::line::Line;
use crate::proved::socket_script::memory::Halt;
use crate::proved::socket_script::packet::Packet;
use crate::proved::socket_script::seat::{Now, Seat};
use crate::proved::socket_script::storage::{Memory, socket_over};
use crate::proved::socket_script::takes::hear;
use crate::proved::socket_script::tally::{Output, Tally, Unwritten, Wanted, put, put_both};

/// Why there was no run, or why it ended before the end of the drill.
#[derive(Clone, Copy)]
pub enum Stop {
    /// The text is no drill; nothing was run.
    Script(ScriptError),
    /// The output cannot be written.
    Write,
    /// Memory ran out.
    Memory,
}

/// Runs a drill, and writes what is wanted of it.
///
/// The fault of a text that is no drill is that of its first line that has one; nothing is written then. `file` stands
/// before each difference.
pub fn run<'t, W: Write>(
    alloc: Global,
    wanted: Wanted,
    file: &'t str,
    text: &'t [u8],
    writer: &mut W,
) -> Result<Tally, Stop> {
    let found = match read_through(alloc, text) {
        Ok(found) => found,
        Err(ScriptError::Memory) => return Err(Stop::Memory),
        Err(error) => return Err(Stop::Script(error)),
    };
    let player = Player {
        alloc,
        file,
        reader: Reader::new(alloc, text),
        output: output_of(wanted, found.checks),
        tally: Tally::new(),
        line: Line::new(alloc),
        chart: Chart::new(),
    };
    match play_all(alloc, player, found.rows, writer) {
        Ok(tally) => Ok(tally),
        Err(Halt::Write) => Err(Stop::Write),
        Err(Halt::Memory) => Err(Stop::Memory),
    }
}

// Plays all lines of a text that was read through, and has so many events and examples.
fn play_all<W: Write>(alloc: Global, player: Player<'_>, rows: usize, writer: &mut W) -> Result<Tally, Halt> {
    let mut player = player;
    if let Output::Chart = player.output {
        player.chart.open(rows, writer)?;
    }
    for _ in 0..u64::MAX {
        if !example(alloc, &mut player, writer)? {
            break;
        }
    }
    if let Output::Chart = player.output {
        player.chart.close(writer)?;
    }
    Ok(player.tally)
}

fn output_of(wanted: Wanted, checks: bool) -> Output {
    match wanted {
        Wanted::Packets => Output::Packets,
        Wanted::Chart => Output::Chart,
        Wanted::Lines if checks => Output::Differences,
        Wanted::Lines => Output::Events,
    }
}

// What the lines of a drill are: whether any says what is expected, and how many rows the others have in a chart.
#[derive(Clone, Copy)]
struct Found {
    checks: bool,
    rows: usize,
}

// Plays the lines up to the next example. False where there is none.
fn example<W: Write>(alloc: Global, player: &mut Player<'_>, writer: &mut W) -> Result<bool, Halt> {
    let mut memory = memory_of(alloc, player.reader.rest())?;
    with_memory(alloc, memory.as_mut_slice(), player, writer)
}

// Reads all lines.
fn read_through(alloc: Global, text: &[u8]) -> Result<Found, ScriptError> {
    let mut reader = Reader::new(alloc, text);
    let mut found = Found { checks: false, rows: 0 };
    for _ in 0..u64::MAX {
        let Some(numbered) = reader.next()? else {
            break;
        };
        match numbered.request {
            Request::Line(_) | Request::Expect(..) => found.checks = true,
            _ => found.rows = found.rows.saturating_add(1),
        }
    }
    Ok(found)
}

// A text that was read through has no fault, so that its lines end here for want of memory alone.
fn end(error: ScriptError) -> Result<(), Halt> {
    match error {
        ScriptError::Memory => Err(Halt::Memory),
        _ => Ok(()),
    }
}

// The memory of the sockets up to the next example.
fn memory_of(alloc: Global, text: &[u8]) -> Result<Vec<Memory>, Halt> {
    let mut reader = Reader::new(alloc, text);
    let mut memory = Vec::new(alloc);
    for _ in 0..u64::MAX {
        match reader.next() {
            Ok(Some(numbered)) => match numbered.request {
                Request::Example(_) => break,
                Request::Make(room) => add(alloc, &mut memory, room)?,
                _ => {}
            },
            Ok(None) => break,
            Err(error) => {
                end(error)?;
                break;
            }
        }
    }
    Ok(memory)
}

fn add(alloc: Global, memory: &mut Vec<Memory>, room: Room) -> Result<(), Halt> {
    let Ok(one) = Memory::of(alloc, room) else {
        return Err(Halt::Memory);
    };
    match memory.push(one) {
        Ok(()) => Ok(()),
        Err(_) => Err(Halt::Memory),
    }
}

// Makes the sockets, and plays the lines.
fn with_memory<W: Write>(
    alloc: Global,
    memory: &mut [Memory],
    player: &mut Player<'_>,
    writer: &mut W,
) -> Result<bool, Halt> {
    let mut seats = Vec::new(alloc);
    let each = memory.iter_mut();
    for one in each {
        let seat = Seat::new(alloc, socket_over(one));
        if seats.push(seat).is_err() {
            return Err(Halt::Memory);
        }
    }
    player.example(seats, writer)
}

// The lines that are left, what was found so far, and the line of the latest event.
struct Player<'t> {
    alloc: Global,
    file: &'t str,
    reader: Reader<'t>,
    output: Output,
    tally: Tally,
    line: Line,
    chart: Chart,
}

impl<'t> Player<'t> {
    fn example<W: Write>(&mut self, seats: Vec<Seat<'_>>, writer: &mut W) -> Result<bool, Halt> {
        let mut sockets = Sockets { seats, now: Now { millis: 0, word: 0 } };
        for _ in 0..u64::MAX {
            let numbered = match self.reader.next() {
                Ok(Some(numbered)) => numbered,
                Ok(None) => return Ok(false),
                Err(error) => {
                    end(error)?;
                    return Ok(false);
                }
            };
            if let Request::Example(name) = numbered.request {
                self.begin(name, writer)?;
                return Ok(true);
            }
            self.play(&mut sockets, &numbered, writer)?;
        }
        Ok(false)
    }

    fn begin<W: Write>(&mut self, name: &[u8], writer: &mut W) -> Result<(), Unwritten> {
        self.tally.examples = self.tally.examples.saturating_add(1);
        self.line.clear();
        match self.output {
            Output::Events => {
                put(writer, b"example ")?;
                put(writer, name)?;
                put(writer, b"\n")
            }
            Output::Chart => self.chart.begin(name, writer),
            Output::Differences | Output::Packets => Ok(()),
        }
    }

    fn play<W: Write>(
        &mut self,
        sockets: &mut Sockets<'_>,
        numbered: &Numbered<'t>,
        writer: &mut W,
    ) -> Result<(), Halt> {
        match numbered.request {
            Request::Line(text) => self.compare_line(numbered.line, text, writer)?,
            Request::Expect(place, expected) => {
                self.expect(sockets, numbered.line, place, &expected, writer)?;
            }
            request => {
                self.line.clear();
                let before = sockets.state_of(&request);
                sockets.perform(self.alloc, &request, &mut self.line);
                if self.line.is_cut() {
                    return Err(Halt::Memory);
                }
                self.print(sockets, numbered, before, writer)?;
            }
        }
        Ok(())
    }

    // Prints the line of an event, its packets, or its row, before which its socket was in this state.
    fn print<W: Write>(
        &mut self,
        sockets: &mut Sockets<'_>,
        numbered: &Numbered<'t>,
        before: Option<&'static str>,
        writer: &mut W,
    ) -> Result<(), Halt> {
        match self.output {
            Output::Differences => Ok(()),
            Output::Events => Ok(put_line(writer, self.line.as_bytes())?),
            Output::Packets => sockets.put_packets(self.alloc, writer),
            Output::Chart => {
                let drawn = Drawn {
                    line: numbered.line,
                    millis: sockets.now.millis,
                    name: numbered.name,
                    values: numbered.values,
                    answer: self.line.as_bytes(),
                    came: is_packet(&numbered.request),
                    state: changed(before, sockets.state_of(&numbered.request)),
                };
                let mut chart = self.chart;
                chart.draw(&drawn, writer)?;
                self.chart = chart;
                Ok(())
            }
        }
    }

    fn compare_line<W: Write>(
        &mut self,
        number: usize,
        text: &[u8],
        writer: &mut W,
    ) -> Result<(), Unwritten> {
        if self.tally.compare(text, self.line.as_bytes()) {
            return Ok(());
        }
        match self.output {
            Output::Packets | Output::Chart => Ok(()),
            _ => put_both(writer, self.file, number, text, self.line.as_bytes()),
        }
    }

    fn expect<W: Write>(
        &mut self,
        sockets: &Sockets<'_>,
        number: usize,
        place: usize,
        expected: &Expected<'_>,
        writer: &mut W,
    ) -> Result<(), Halt> {
        let mut text = Line::new(self.alloc);
        sockets.tell(self.alloc, place, expected, &mut text);
        if text.is_cut() {
            return Err(Halt::Memory);
        }
        let word = match expected {
            Expected::State(word) | Expected::Poll(word) => word,
        };
        if self.tally.compare(word, text.as_bytes()) {
            return Ok(());
        }
        if let Output::Packets | Output::Chart = self.output {
            return Ok(());
        }
        put_both(writer, self.file, number, word, text.as_bytes())?;
        Ok(())
    }
}

// Whether a packet comes to a socket.
fn is_packet(request: &Request<'_>) -> bool {
    matches!(request, Request::Call(_, Call::Take(_)) | Request::Deliver(..))
}

// The state behind an event, where it is another than before.
fn changed(before: Option<&'static str>, after: Option<&'static str>) -> Option<&'static str> {
    let state = after?;
    match before {
        Some(before) if before == state => None,
        _ => Some(state),
    }
}

// A line that is not empty, and a line feed.
fn put_line<W: Write>(writer: &mut W, line: &[u8]) -> Result<(), Unwritten> {
    if line.is_empty() {
        return Ok(());
    }
    put(writer, line)?;
    put(writer, b"\n")
}

// The sockets of an example, and the moment.
struct Sockets<'a> {
    seats: Vec<Seat<'a>>,
    now: Now,
}

impl Sockets<'_> {
    // Writes the packets that came and went and are not written yet.
    fn put_packets<W: Write>(&mut self, alloc: Global, writer: &mut W) -> Result<(), Halt> {
        let millis = self.now.millis;
        for seat in &mut self.seats {
            seat.put_packets(alloc, millis, writer)?;
        }
        Ok(())
    }
}

impl Sockets<'_> {
    // The state of the socket that a line is about, if there is one.
    fn state_of(&self, request: &Request<'_>) -> Option<&'static str> {
        let place = match request {
            Request::Call(place, _) | Request::Deliver(_, _, place) => *place,
            _ => return None,
        };
        let seat = self.seats.get(place)?;
        Some(state_name(&seat.socket))
    }

    // What a line asks for, and its answer as text.
    fn perform(&mut self, alloc: Global, request: &Request<'_>, line: &mut Line) {
        match request {
            Request::Clock(millis) => self.now.millis = *millis,
            Request::Word(word) => self.now.word = *word,
            Request::Call(place, call) => self.call(alloc, *place, call, line),
            Request::Deliver(from, which, to) => self.deliver(alloc, *from, *which, *to, line),
            _ => {}
        }
    }

    fn call(&mut self, alloc: Global, place: usize, call: &Call<'_>, line: &mut Line) {
        let now = self.now_of(call);
        if let Some(seat) = self.seats.get_mut(place) {
            perform(seat, alloc, now, call, line);
        }
    }

    // The moment and the word of a call. A moment that the line names is that of the calls to come.
    fn now_of(&mut self, call: &Call<'_>) -> Now {
        match call {
            Call::Counted(Counted::Connect, word) => {
                return Now { millis: self.now.millis, word: *word };
            }
            Call::Counted(Counted::Dispatch | Counted::Fail | Counted::Gone | Counted::Poll, millis) => {
                self.now.millis = *millis
            }
            _ => {}
        }
        self.now
    }

    fn deliver(&mut self, alloc: Global, from: usize, which: Which, to: usize, line: &mut Line) {
        match self.sent_by(alloc, from, which) {
            Err(_) => line.cut(),
            Ok(None) => line.say("no-segment"),
            Ok(Some(packet)) => self.hear(alloc, to, &packet, line),
        }
    }

    fn hear(&mut self, alloc: Global, to: usize, packet: &Packet, line: &mut Line) {
        let now = self.now;
        if let Some(seat) = self.seats.get_mut(to) {
            hear(seat, alloc, now, packet, line);
        }
    }

    // What a socket emitted, once more.
    fn sent_by(&self, alloc: Global, from: usize, which: Which) -> Result<Option<Packet>, AllocError> {
        let Some(seat) = self.seats.get(from) else {
            return Ok(None);
        };
        let sent = seat.sent.as_slice();
        let packet = match which {
            Which::Last => sent.last(),
            Which::Number(0) => None,
            Which::Number(number) => sent.get(number - 1),
        };
        match packet {
            None => Ok(None),
            Some(packet) => match packet.again(alloc) {
                Ok(packet) => Ok(Some(packet)),
                Err(error) => Err(error),
            },
        }
    }

    // What a socket says, as text.
    fn tell(&self, alloc: Global, place: usize, expected: &Expected<'_>, text: &mut Line) {
        let Some(seat) = self.seats.get(place) else {
            return;
        };
        match expected {
            Expected::State(_) => text.say(state_name(&seat.socket)),
            Expected::Poll(_) => {
                let host = seat.host(alloc, self.now, false);
                served(seat.socket.poll_at(&host), text);
            }
        }
    }
}
