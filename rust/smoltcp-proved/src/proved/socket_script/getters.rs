// Made from crates/socket_script/src/getters.rt by rust/translate: change it there.
//! What a socket says of itself.

use crate::proved::smoltcp_socket::{PollAt, Socket, icmp, raw, tcp, udp};
use crate::proved::socket_script::clock::Clock;
use crate::proved::socket_script::line::{Line, Part};
use crate::proved::socket_script::outbox::Host;

fn yes(is: bool) -> Part<'static> {
    Part::Text(if is { "yes" } else { "no" })
}

fn on(is: bool) -> Part<'static> {
    Part::Text(if is { "on" } else { "off" })
}

/// The name of a socket's state: that of its connection, else `OPEN` or `CLOSED`. A raw socket is always open.
pub fn state_name(socket: &Socket<'_, Clock>) -> &'static str {
    let is_open = match socket {
        Socket::Tcp(socket) => return socket.state().name(),
        Socket::Udp(socket) => socket.is_open(),
        Socket::Icmp(socket) => socket.is_open(),
        Socket::Raw(_) => true,
    };
    if is_open { "OPEN" } else { "CLOSED" }
}

/// `state STATE`, and of a connection whether it is open, listens, and is active.
pub fn state(socket: &Socket<'_, Clock>, line: &mut Line) {
    line.put("state %", &[Part::Text(state_name(socket))]);
    if let Socket::Tcp(socket) = socket {
        line.put(
            " open % listening % active %",
            &[yes(socket.is_open()), yes(socket.is_listening()), yes(socket.is_active())],
        );
    }
}

/// What waits in each direction, of how many, and whether more can be sent and received.
pub fn queues(socket: &Socket<'_, Clock>, line: &mut Line) {
    match socket {
        Socket::Tcp(socket) => tcp_queues(socket, line),
        Socket::Udp(socket) => udp_queues(socket, line),
        Socket::Icmp(socket) => icmp_queues(socket, line),
        Socket::Raw(socket) => raw_queues(socket, line),
    }
}

fn tcp_queues(socket: &tcp::Socket<'_, Clock>, line: &mut Line) {
    line.put(
        "send % of % may % can %",
        &[
            Part::Count(socket.send_queue()),
            Part::Count(socket.send_capacity()),
            yes(socket.may_send()),
            yes(socket.can_send()),
        ],
    );
    line.put(
        " recv % of % may % can %",
        &[
            Part::Count(socket.recv_queue()),
            Part::Count(socket.recv_capacity()),
            yes(socket.may_recv()),
            yes(socket.can_recv()),
        ],
    );
}

// Both directions of a socket that keeps packets, of whichever kind.
macro_rules! packet_queues {
    ($socket:expr, $line:expr) => {{
        $line.put(
            "send % of % packets % can %",
            &[
                Part::Count($socket.send_queue()),
                Part::Count($socket.payload_send_capacity()),
                Part::Count($socket.packet_send_capacity()),
                yes($socket.can_send()),
            ],
        );
        $line.put(
            " recv % of % packets % can %",
            &[
                Part::Count($socket.recv_queue()),
                Part::Count($socket.payload_recv_capacity()),
                Part::Count($socket.packet_recv_capacity()),
                yes($socket.can_recv()),
            ],
        );
    }};
}

fn udp_queues(socket: &udp::Socket<'_>, line: &mut Line) {
    packet_queues!(socket, line)
}

fn icmp_queues(socket: &icmp::Socket<'_>, line: &mut Line) {
    packet_queues!(socket, line)
}

fn raw_queues(socket: &raw::Socket<'_>, line: &mut Line) {
    packet_queues!(socket, line)
}

/// The settings of a socket.
pub fn settings(socket: &Socket<'_, Clock>, line: &mut Line) {
    let limit = match socket {
        Socket::Tcp(socket) => socket.hop_limit(),
        Socket::Udp(socket) => socket.hop_limit(),
        Socket::Icmp(socket) => socket.hop_limit(),
        Socket::Raw(_) => None,
    };
    line.put("hop-limit %", &[Part::Limit(limit)]);
    if let Socket::Tcp(socket) = socket {
        tcp_settings(socket, line);
    }
}

fn tcp_settings(socket: &tcp::Socket<'_, Clock>, line: &mut Line) {
    let congestion = match socket.congestion_control() {
        tcp::CongestionControl::None => "none",
        tcp::CongestionControl::Reno => "reno",
        #[cfg(feature = "socket-tcp-cubic")]
        tcp::CongestionControl::Cubic => "cubic",
    };
    line.put(
        " timeout % ack-delay % keep-alive %",
        &[
            Part::Millis(socket.timeout()),
            Part::Millis(socket.ack_delay()),
            Part::Millis(socket.keep_alive()),
        ],
    );
    line.put(
        " nagle % congestion % timestamps %",
        &[on(socket.nagle_enabled()), Part::Text(congestion), on(socket.timestamp_enabled())],
    );
    if let tcp::Rules::Rfc = socket.rules() {
        line.say(" rules rfc");
    }
}

/// What a socket is bound to, or listens on, and the ends of its connection.
pub fn endpoints(socket: &Socket<'_, Clock>, line: &mut Line) {
    match socket {
        Socket::Tcp(socket) => line.put(
            "listen % local % remote %",
            &[
                Part::Port(socket.listen_endpoint()),
                Part::End(socket.local_endpoint()),
                Part::End(socket.remote_endpoint()),
            ],
        ),
        Socket::Udp(socket) => line.put("bound %", &[Part::Port(socket.endpoint())]),
        _ => line.say("no-such-call"),
    }
}

/// What a connection has measured: its windows, and its times in milliseconds.
pub fn measures(socket: &Socket<'_, Clock>, line: &mut Line) {
    match socket {
        Socket::Tcp(socket) => line.put(
            "window % congestion-window % round-trip % timeout %",
            &[
                Part::Count(socket.remote_window()),
                Part::Count(socket.congestion_window()),
                Part::Number(u64::from(socket.smoothed_round_trip())),
                Part::Number(socket.retransmission_timeout().total_millis()),
            ],
        ),
        _ => line.say("no-such-call"),
    }
}

/// Writes when a socket wants to be served: `now`, `ingress`, or so many milliseconds after the start.
pub fn served(at: PollAt, line: &mut Line) {
    match at {
        PollAt::Now => line.say("now"),
        PollAt::Ingress => line.say("ingress"),
        PollAt::Time(at) => line.show(at.total_millis()),
    }
}

/// When a socket wants to be served.
pub fn poll(socket: &Socket<'_, Clock>, host: &Host, line: &mut Line) {
    line.say("poll ");
    served(socket.poll_at(host), line);
}
