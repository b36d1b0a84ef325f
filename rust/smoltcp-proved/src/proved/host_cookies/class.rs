// Made from crates/host_cookies/src/class.rt by rust/translate: change it there.
//! Three bits of the size of a segment that a SYN told.

/// The class of a largest segment that was told, or of none: the greatest that is not larger.
pub fn class_of(mss: Option<u16>) -> u8 {
    match mss {
        None => 0,
        Some(mss) => told(mss),
    }
}

fn told(mss: u16) -> u8 {
    match mss {
        1460.. => 7,
        1440.. => 6,
        1360.. => 5,
        1220.. => 4,
        536.. => 3,
        256.. => 2,
        _ => 1,
    }
}

/// The largest segment of a class; none was told in class 0.
pub fn mss_of(class: u8) -> Option<u16> {
    match class {
        0 => None,
        1 => Some(28),
        2 => Some(256),
        3 => Some(536),
        4 => Some(1220),
        5 => Some(1360),
        6 => Some(1440),
        _ => Some(1460),
    }
}
