// Made from crates/sock_core/src/places.rt by rust/translate: change it there.
//! Places in a stream and the 32-bit sequence numbers that stand for them (RFC 9293, section 3.4).

/// Two places less than 2^31 apart stand in the same order as their numbers: the number of the one is before
/// the number of the other exactly where its place is less. So comparisons of numbers near one another may be
/// read as comparisons of places, which never wrap.
pub fn order_of_near_places() {}
