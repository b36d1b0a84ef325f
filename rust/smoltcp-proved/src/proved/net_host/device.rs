// Made from crates/net_host/src/device.rt by rust/translate: change it there.
//! What carries the packets of an interface.

/// A device that carries IP packets, as smoltcp's with the medium `Ip`.
///
/// What its calls do is told by ghost members, of which an implementation may say as much as it knows: `λ _ _ _ _. Unit
/// {0}` of `receives` and `λ _ _ _. Unit {0}` of `transmits` say nothing.
pub trait Device {
    /// The largest IP packet that it carries, in bytes.
    fn max_transmission_unit(&self) -> usize;

    /// Whether a packet may be handed to it now. Where not, nothing is received either, as it may have to be answered.
    fn has_room(&self) -> bool;

    /// Takes the next packet that arrived, to the beginning of `packet`, and answers its length in bytes; 0 where none
    /// waits. It never waits itself.
    fn receive(&mut self, packet: &mut [u8]) -> usize;

    /// Sends a packet, of one byte at least. It never waits; what it cannot send after all is lost, as on any network.
    fn transmit(&mut self, packet: &[u8]);
}
