// Made from crates/host_groups/src/joining.rt by rust/translate: change it there.
//! Groups that an interface has joined.

use crate::proved::ip_wire::IpAddress;

/// Why a group is not joined, or not left. As smoltcp's.
#[derive(Debug, Clone, Copy, PartialEq, Eq)]
pub enum MulticastError {
    /// Four groups were joined, and there is room for no more.
    GroupTableFull,
    /// The address is none of a group.
    Unaddressable,
}

/// The groups of an interface, of which there are at most four.
#[derive(Debug, Clone, Copy, PartialEq, Eq)]
pub struct Groups {
    pub(crate) first: Option<IpAddress>,
    pub(crate) second: Option<IpAddress>,
    pub(crate) third: Option<IpAddress>,
    pub(crate) fourth: Option<IpAddress>,
}

fn is_at(place: &Option<IpAddress>, group: &IpAddress) -> bool {
    match place {
        Some(addr) => *addr == *group,
        None => false,
    }
}

fn without(place: &Option<IpAddress>, group: &IpAddress) -> Option<IpAddress> {
    if is_at(place, group) { None } else { *place }
}

impl Groups {
    /// No group was joined.
    pub fn none() -> Groups {
        Groups { first: None, second: None, third: None, fourth: None }
    }

    /// Whether the group was joined.
    pub fn has(&self, group: &IpAddress) -> bool {
        is_at(&self.first, group)
            || is_at(&self.second, group)
            || is_at(&self.third, group)
            || is_at(&self.fourth, group)
    }

    // Puts a group into the first place that is free, if any is. Whether one was.
    fn put(&mut self, group: IpAddress) -> bool {
        match (self.first, self.second, self.third, self.fourth) {
            (None, _, _, _) => self.first = Some(group),
            (_, None, _, _) => self.second = Some(group),
            (_, _, None, _) => self.third = Some(group),
            (_, _, _, None) => self.fourth = Some(group),
            _ => return false,
        }
        true
    }

    /// Joins the group; one that was joined is as it was.
    ///
    /// # Errors
    /// `GroupTableFull` where four others were joined, `Unaddressable` where the address is none of a group; nothing
    /// changes then.
    pub fn join(&mut self, group: IpAddress) -> Result<(), MulticastError> {
        if !group.is_multicast() {
            return Err(MulticastError::Unaddressable);
        }
        if self.has(&group) || self.put(group) { Ok(()) } else { Err(MulticastError::GroupTableFull) }
    }

    /// Leaves the group, if it was joined.
    ///
    /// # Errors
    /// `Unaddressable` where the address is none of a group.
    pub fn leave(&mut self, group: &IpAddress) -> Result<(), MulticastError> {
        self.first = without(&self.first, group);
        self.second = without(&self.second, group);
        self.third = without(&self.third, group);
        self.fourth = without(&self.fourth, group);
        if group.is_multicast() { Ok(()) } else { Err(MulticastError::Unaddressable) }
    }
}
