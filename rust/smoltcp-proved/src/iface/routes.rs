//! Routes. A medium of IP packets has no neighbours, so they say only which addresses an interface answers for
//! (`Interface::set_any_ip`).
use super::{Blank, FixedVec, IFACE_MAX_ROUTE_COUNT};
use crate::proved::ip_wire::{IpAddress, Ipv4Address, Ipv6Address};
use crate::proved::net_base::Instant;
use crate::wire::{IpCidr, Ipv4Cidr, Ipv6Cidr};
use core::fmt;

/// No room for another route.
#[derive(Debug, Clone, Copy, PartialEq, Eq, PartialOrd, Ord, Hash)]
pub struct RouteTableFull;

impl fmt::Display for RouteTableFull {
    fn fmt(&self, f: &mut fmt::Formatter<'_>) -> fmt::Result {
        f.write_str("Route table full")
    }
}

impl core::error::Error for RouteTableFull {}

/// Through which router a network is reached.
#[derive(Debug, Clone, Copy)]
pub struct Route {
    /// The network.
    pub cidr: IpCidr,
    /// The router.
    pub via_router: IpAddress,
    /// Until when it is preferred; none for always. Nothing asks.
    pub preferred_until: Option<Instant>,
    /// When it ends; none for never.
    pub expires_at: Option<Instant>,
}

const ALL_IPV4: IpCidr = IpCidr::Ipv4(Ipv4Cidr::new(Ipv4Address::UNSPECIFIED, 0));
const ALL_IPV6: IpCidr = IpCidr::Ipv6(Ipv6Cidr::new(Ipv6Address::UNSPECIFIED, 0));

impl Blank for IpCidr {
    const BLANK: IpCidr = ALL_IPV4;
}

impl Blank for Route {
    const BLANK: Route = Route {
        cidr: ALL_IPV4,
        via_router: IpAddress::v4(0, 0, 0, 0),
        preferred_until: None,
        expires_at: None,
    };
}

impl Route {
    fn default_via(cidr: IpCidr, via_router: IpAddress) -> Route {
        Route { cidr, via_router, preferred_until: None, expires_at: None }
    }

    /// The way to all of IPv4.
    pub fn new_ipv4_gateway(gateway: Ipv4Address) -> Route {
        Route::default_via(ALL_IPV4, gateway.into())
    }

    /// The way to all of IPv6.
    pub fn new_ipv6_gateway(gateway: Ipv6Address) -> Route {
        Route::default_via(ALL_IPV6, gateway.into())
    }
}

/// The routes of an interface.
#[derive(Debug, Default)]
pub struct Routes {
    list: FixedVec<Route, IFACE_MAX_ROUTE_COUNT>,
}

impl Routes {
    /// Lets `f` change the routes.
    pub fn update<F: FnOnce(&mut FixedVec<Route, IFACE_MAX_ROUTE_COUNT>)>(&mut self, f: F) {
        f(&mut self.list);
    }

    /// Sets the way to all of IPv4; the former one comes back.
    pub fn add_default_ipv4_route(&mut self, gateway: Ipv4Address) -> Result<Option<Route>, RouteTableFull> {
        self.put(Route::new_ipv4_gateway(gateway))
    }

    /// Sets the way to all of IPv6; the former one comes back.
    pub fn add_default_ipv6_route(&mut self, gateway: Ipv6Address) -> Result<Option<Route>, RouteTableFull> {
        self.put(Route::new_ipv6_gateway(gateway))
    }

    fn put(&mut self, route: Route) -> Result<Option<Route>, RouteTableFull> {
        let old = self.take(&route.cidr);
        self.list.push(route).map_err(|_| RouteTableFull)?;
        Ok(old)
    }

    /// Takes away the way to all of IPv4.
    pub fn remove_default_ipv4_route(&mut self) -> Option<Route> {
        self.take(&ALL_IPV4)
    }

    /// Takes away the way to all of IPv6.
    pub fn remove_default_ipv6_route(&mut self) -> Option<Route> {
        self.take(&ALL_IPV6)
    }

    fn take(&mut self, cidr: &IpCidr) -> Option<Route> {
        let place = self.list.iter().position(|route| route.cidr == *cidr)?;
        Some(self.list.remove(place))
    }

    /// The router to this address: of the longest prefix among the routes that have not ended.
    pub(crate) fn lookup(&self, addr: &IpAddress, now: Instant) -> Option<IpAddress> {
        let lasts = |route: &&Route| route.expires_at.is_none_or(|end| now < end);
        let ways = self.list.iter().filter(lasts).filter(|route| route.cidr.contains_addr(addr));
        ways.max_by_key(|route| route.cidr.prefix_len()).map(|route| route.via_router)
    }
}
