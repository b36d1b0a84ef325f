//! A TUN device of Linux, by calls of its C library that are declared here: all `unsafe` code of the crate is in this
//! file, behind the feature `tuntap`.
#![allow(unsafe_code)]
use super::{Device, DeviceCapabilities, Medium, RxToken, TxToken};
use crate::proved::net_base::{Duration, Instant};
use alloc::vec::Vec;
use core::ffi::{c_int, c_short, c_ulong};
use std::fs::File;
use std::io::{self, Read, Write};
use std::net::UdpSocket;
use std::os::fd::{AsRawFd, FromRawFd, OwnedFd, RawFd};
use std::os::unix::fs::OpenOptionsExt;

// As most processors have them: MIPS, PowerPC and SPARC have others.
const O_NONBLOCK: i32 = 0o4000;
const TUNSETIFF: c_ulong = 0x4004_54ca;
const SIOCGIFMTU: c_ulong = 0x8921;
const IFF_TUN: c_int = 0x0001;
const IFF_NO_PI: c_int = 0x1000;
const POLLIN: c_short = 0x001;

/// `struct ifreq`: a name of 16 bytes, and 24 bytes that begin with a number.
#[repr(C, align(8))]
struct Request {
    name: [u8; 16],
    value: [u8; 24],
}

/// `struct pollfd`.
#[repr(C)]
struct Poll {
    fd: c_int,
    events: c_short,
    revents: c_short,
}

// SAFETY: as Linux's manual pages ioctl(2) and poll(2) declare them.
unsafe extern "C" {
    fn ioctl(fd: c_int, request: c_ulong, ...) -> c_int;
    fn poll(fds: *mut Poll, count: c_ulong, millis: c_int) -> c_int;
}

impl Request {
    fn named(name: &str) -> io::Result<Request> {
        let mut request = Request { name: [0; 16], value: [0; 24] };
        if name.len() > 15 {
            return Err(io::Error::new(io::ErrorKind::InvalidInput, "a name of more than 15 bytes"));
        }
        request.name[..name.len()].copy_from_slice(name.as_bytes());
        Ok(request)
    }

    fn call(&mut self, file: &impl AsRawFd, request: c_ulong) -> io::Result<()> {
        // SAFETY: the file is open, and both requests take a `struct ifreq`, which they may write.
        let done = unsafe { ioctl(file.as_raw_fd(), request, &raw mut *self) };
        if done < 0 { Err(io::Error::last_os_error()) } else { Ok(()) }
    }
}

/// Waits until the file can be read, or the time is over; with none, without an end. What is less than a millisecond
/// counts as one.
pub fn wait(fd: RawFd, duration: Option<Duration>) -> io::Result<()> {
    let most = c_int::MAX as u64;
    let millis = duration.map_or(-1, |wait| wait.total_micros().div_ceil(1000).min(most) as c_int);
    let mut fds = Poll { fd, events: POLLIN, revents: 0 };
    // SAFETY: one `struct pollfd`, which the call may write.
    let ready = unsafe { poll(&raw mut fds, 1, millis) };
    match io::Error::last_os_error() {
        error if ready < 0 && error.kind() != io::ErrorKind::Interrupted => Err(error),
        _ => Ok(()),
    }
}

/// A TUN device of Linux: what it sends, the system receives, and the other way round.
#[derive(Debug)]
pub struct TunTapInterface {
    file: File,
    mtu: usize,
    medium: Medium,
}

impl TunTapInterface {
    /// Opens the device of this name, or makes it, which takes a right (`CAP_NET_ADMIN`). Its MTU is the system's.
    pub fn new(name: &str, medium: Medium) -> io::Result<TunTapInterface> {
        let file = File::options().read(true).write(true).custom_flags(O_NONBLOCK).open("/dev/net/tun")?;
        let mut request = Request::named(name)?;
        request.value[..2].copy_from_slice(&((IFF_TUN | IFF_NO_PI) as u16).to_ne_bytes());
        request.call(&file, TUNSETIFF)?;
        let mut request = Request::named(name)?;
        request.call(&UdpSocket::bind("127.0.0.1:0")?, SIOCGIFMTU)?;
        let [a, b, c, d, ..] = request.value;
        Ok(TunTapInterface { file, mtu: u32::from_ne_bytes([a, b, c, d]) as usize, medium })
    }

    /// A device that is open already, for packets of at most so many bytes. It is closed with this value; reads that
    /// find nothing should not wait (`O_NONBLOCK`).
    pub fn from_fd(fd: RawFd, medium: Medium, mtu: usize) -> io::Result<TunTapInterface> {
        if fd < 0 {
            return Err(io::Error::new(io::ErrorKind::InvalidInput, "a negative file descriptor"));
        }
        // SAFETY: the caller hands the file over, as smoltcp's call of this name; it is no memory.
        let file = unsafe { OwnedFd::from_raw_fd(fd) };
        Ok(TunTapInterface { file: file.into(), mtu, medium })
    }
}

impl AsRawFd for TunTapInterface {
    fn as_raw_fd(&self) -> RawFd {
        self.file.as_raw_fd()
    }
}

impl Device for TunTapInterface {
    type RxToken<'a> = TunRx;
    type TxToken<'a> = TunTx<'a>;

    fn receive(&mut self, _: Instant) -> Option<(TunRx, TunTx<'_>)> {
        let mut packet = alloc::vec![0; self.mtu];
        let len = self.file.read(&mut packet).ok().filter(|len| *len > 0)?;
        packet.truncate(len);
        Some((TunRx(packet), TunTx(&mut self.file)))
    }

    fn transmit(&mut self, _: Instant) -> Option<TunTx<'_>> {
        Some(TunTx(&mut self.file))
    }

    fn capabilities(&self) -> DeviceCapabilities {
        DeviceCapabilities {
            medium: self.medium,
            max_transmission_unit: self.mtu,
            loops_back: false,
            ..DeviceCapabilities::default()
        }
    }
}

/// A packet of a [`TunTapInterface`].
#[derive(Debug)]
pub struct TunRx(Vec<u8>);

impl RxToken for TunRx {
    fn consume<R, F: FnOnce(&[u8]) -> R>(self, f: F) -> R {
        f(&self.0)
    }
}

/// Room for a packet of a [`TunTapInterface`].
#[derive(Debug)]
pub struct TunTx<'a>(&'a mut File);

impl TxToken for TunTx<'_> {
    // A packet that the system does not take is lost, as on any link.
    fn consume<R, F: FnOnce(&mut [u8]) -> R>(self, len: usize, f: F) -> R {
        let mut packet = alloc::vec![0; len];
        let result = f(&mut packet);
        let _ = self.0.write(&packet);
        result
    }
}
