//! Classless routes, read out of option 121 (RFC 3442).

use crate::calls;
use crate::refusal::{Refusal, checked};
use core::fmt;
use core::iter::FusedIterator;
use core::net::Ipv4Addr;

/// A route that is read. [`Route`](crate::Route) is one to be written.
#[derive(Clone, Copy, Debug, PartialEq, Eq, Hash)]
pub struct RouteRow {
    /// How many bits the mask has, 0 to 32.
    pub width: u8,
    /// The destination, masked to its width: 0.0.0.0 of a default route, whose width is 0.
    pub destination: Ipv4Addr,
    /// The gateway.
    pub gateway: Ipv4Addr,
}

impl RouteRow {
    /// The route that crossed.
    #[inline]
    fn of(route: calls::ReadRoute) -> RouteRow {
        RouteRow {
            width: route.width,
            destination: Ipv4Addr::from_bits(route.destination),
            gateway: Ipv4Addr::from_bits(route.gateway),
        }
    }
}

/// The routes of option 121, which stand in its value. It can only be had by reading one, so all rows are whole.
///
/// The kind of code 121 is [`Kind::Raw`](crate::Kind::Raw): [`read`](crate::read) gives its bytes, and this its routes.
///
/// ```
/// # let area = [53, 1, 5, 121, 12, 8, 10, 192, 0, 2, 1, 25, 129, 210, 177, 132, 192, 121, 3, 0, 2, 1, 255];
/// use sindovaleph::{Options, Refusal, RouteRow, Routes, codes};
/// use std::net::Ipv4Addr;
///
/// let mut join = [0; 4096];
/// for opt in Options::new(&area, &mut join) {
///     let opt = opt?;
///     if opt.code() != codes::CLASSLESS_STATIC_ROUTE {
///         continue;
///     }
///     let routes = Routes::read(opt.data())?;
///     for RouteRow { width, destination, gateway } in routes {
///         println!("{destination}/{width} via {gateway}");
///     }
///     // Bits behind the width are dropped: this was sent as 129.210.177.132.
///     let (destination, gateway) = (Ipv4Addr::new(129, 210, 177, 128), Ipv4Addr::new(192, 0, 2, 1));
///     assert_eq!(routes.get(1), Ok(RouteRow { width: 25, destination, gateway }));
///     assert_eq!((routes.len(), routes.get(2)), (2, Err(Refusal::PastEnd)));
/// }
/// assert_eq!(Routes::read(&[33, 10, 0, 0, 0, 0]), Err(Refusal::WidthAbove32));
/// assert_eq!(Routes::read(&[8, 10, 192, 0, 2]), Err(Refusal::WrongLength));
/// # Ok::<(), Refusal>(())
/// ```
#[derive(Clone, Copy)]
pub struct Routes<'a> {
    value: &'a [u8],
    count: usize,
}

impl<'a> Routes<'a> {
    /// Reads the value of an option 121. All rows are checked, once: a value of more than 65,535 bytes is
    /// [`Refusal::TooLong`], and of the rows the first bad one decides, by [`Refusal::WidthAbove32`] or, where it is cut,
    /// by [`Refusal::WrongLength`].
    #[inline]
    pub fn read(value: &'a [u8]) -> Result<Routes<'a>, Refusal> {
        let counted = calls::count_routes(value);
        checked(counted.refused)?;
        Ok(Routes { value, count: counted.count })
    }

    /// How many routes there are.
    #[inline]
    #[must_use]
    pub fn len(&self) -> usize {
        self.count
    }

    /// Whether there is none.
    #[inline]
    #[must_use]
    pub fn is_empty(&self) -> bool {
        self.count == 0
    }

    /// The route at an index; [`Refusal::PastEnd`] where there is none. Each call goes over all rows, as they have no one
    /// length: [`Routes::iter`] goes over them once.
    #[inline]
    pub fn get(&self, index: usize) -> Result<RouteRow, Refusal> {
        let route = calls::route_at(self.value, index);
        checked(route.refused)?;
        Ok(RouteRow::of(route))
    }

    /// The routes, one after the other.
    #[inline]
    pub fn iter(&self) -> RouteRows<'a> {
        RouteRows { value: self.value, place: 0, left: self.count }
    }
}

/// Values are alike where their routes are, whatever stood behind a width.
impl PartialEq for Routes<'_> {
    fn eq(&self, other: &Self) -> bool {
        self.iter().eq(other.iter())
    }
}

impl Eq for Routes<'_> {}

impl fmt::Debug for Routes<'_> {
    fn fmt(&self, f: &mut fmt::Formatter<'_>) -> fmt::Result {
        f.debug_list().entries(self.iter()).finish()
    }
}

impl<'a> IntoIterator for Routes<'a> {
    type Item = RouteRow;
    type IntoIter = RouteRows<'a>;

    #[inline]
    fn into_iter(self) -> RouteRows<'a> {
        self.iter()
    }
}

impl<'a> IntoIterator for &Routes<'a> {
    type Item = RouteRow;
    type IntoIter = RouteRows<'a>;

    #[inline]
    fn into_iter(self) -> RouteRows<'a> {
        self.iter()
    }
}

/// The routes of a value, one after the other.
#[derive(Clone)]
#[must_use = "routes are read as they are asked for"]
pub struct RouteRows<'a> {
    value: &'a [u8],
    place: usize,
    left: usize,
}

impl Iterator for RouteRows<'_> {
    type Item = RouteRow;

    #[inline]
    fn next(&mut self) -> Option<RouteRow> {
        self.left = self.left.checked_sub(1)?;
        // All rows were checked, so none is refused.
        let route = calls::route_from(self.value, self.place);
        self.place = route.place;
        Some(RouteRow::of(route))
    }

    #[inline]
    fn size_hint(&self) -> (usize, Option<usize>) {
        (self.left, Some(self.left))
    }
}

impl ExactSizeIterator for RouteRows<'_> {}

impl FusedIterator for RouteRows<'_> {}

impl fmt::Debug for RouteRows<'_> {
    fn fmt(&self, f: &mut fmt::Formatter<'_>) -> fmt::Result {
        f.debug_list().entries(self.clone()).finish()
    }
}
