//! Tasks that wait for a socket: at most one that waits for what came, and one that waits for room to send.
#[cfg(feature = "async")]
use core::task::Waker;

/// The two wakers of a socket, each the last that was registered, until it is woken. Without the feature `async`
/// nothing is kept.
#[derive(Debug, Default)]
pub(crate) struct Wakers {
    #[cfg(feature = "async")]
    recv: Option<Waker>,
    #[cfg(feature = "async")]
    send: Option<Waker>,
}

#[cfg(feature = "async")]
fn register(place: &mut Option<Waker>, waker: &Waker) {
    match place {
        Some(kept) => kept.clone_from(waker),
        None => *place = Some(waker.clone()),
    }
}

#[cfg(feature = "async")]
fn wake(place: &mut Option<Waker>) {
    if let Some(waker) = place.take() {
        waker.wake();
    }
}

#[cfg(feature = "async")]
impl Wakers {
    pub(crate) fn register_recv(&mut self, waker: &Waker) {
        register(&mut self.recv, waker);
    }

    pub(crate) fn register_send(&mut self, waker: &Waker) {
        register(&mut self.send, waker);
    }

    /// Whether a task waits, so that it is worth asking what a call changes.
    #[inline(always)]
    pub(crate) fn any(&self) -> bool {
        self.recv.is_some() || self.send.is_some()
    }

    pub(crate) fn wake_recv(&mut self) {
        wake(&mut self.recv);
    }

    pub(crate) fn wake_send(&mut self) {
        wake(&mut self.send);
    }
}

#[cfg(not(feature = "async"))]
impl Wakers {
    #[inline(always)]
    pub(crate) fn any(&self) -> bool {
        false
    }

    pub(crate) fn wake_recv(&mut self) {}

    pub(crate) fn wake_send(&mut self) {}
}

impl Wakers {
    pub(crate) fn wake_both(&mut self) {
        self.wake_recv();
        self.wake_send();
    }
}

/// Asks a closure how many bytes it wrote, of those that it is lent: panics where they are more.
pub(crate) fn written(room: &mut [u8], f: impl FnOnce(&mut [u8]) -> usize) -> usize {
    let count = f(room);
    assert!(count <= room.len(), "no more bytes are written than were lent");
    count
}

/// What the three kinds of sockets of packets have alike: their proved socket below, and the calls that keep a waker.
macro_rules! of_packets {
    ($proved:ident, $what:literal, $changed:literal) => {
        impl<'a> Socket<'a> {
            #[cfg(feature = "async")]
            #[doc = concat!("Wakes this task, once, where ", $what, " came", $changed, ".")]
            ///
            /// One waker is kept, the last that was registered. A task that is woken may find that nothing has changed
            /// for it, as where what came found no room. All as in smoltcp.
            pub fn register_recv_waker(&mut self, waker: &core::task::Waker) {
                self.wakers.register_recv(waker);
            }

            #[cfg(feature = "async")]
            #[doc = concat!("Wakes this task, once, where ", $what, " left the transmit queue", $changed, ".")]
            ///
            /// One waker is kept, the last that was registered. A task that is woken may find that nothing has changed
            /// for it. All as in smoltcp.
            pub fn register_send_waker(&mut self, waker: &core::task::Waker) {
                self.wakers.register_send(waker);
            }

            // Dispatches, and wakes the sender where a packet has left the queue.
            #[inline(always)]
            fn dispatched<E>(
                &mut self,
                call: impl FnOnce(&mut $proved::Socket<'a>) -> Result<(), E>,
            ) -> Result<(), E> {
                let waits = self.wakers.any() && !self.proved.tx_buffer.is_empty();
                call(&mut self.proved)?;
                if waits {
                    self.wakers.wake_send();
                }
                Ok(())
            }
        }

        impl<'a> core::ops::Deref for Socket<'a> {
            type Target = $proved::Socket<'a>;

            #[inline(always)]
            fn deref(&self) -> &Self::Target {
                &self.proved
            }
        }

        impl core::ops::DerefMut for Socket<'_> {
            #[inline(always)]
            fn deref_mut(&mut self) -> &mut Self::Target {
                &mut self.proved
            }
        }
    };
}

pub(crate) use of_packets;
