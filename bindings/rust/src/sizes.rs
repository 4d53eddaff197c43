//! How long an area may be, and what is always enough for one of a length: the numbers of the C header.

/// The most bytes that an area has.
pub const AREA_MAX: usize = 131_072;

/// So many bytes of scratch are enough for an area of a length: for [`check_with`](crate::Area::check_with),
/// [`list_with`](crate::Area::list_with) and [`dump_with`](crate::Area::dump_with). Fewer are refused with 10.
#[must_use]
pub const fn scratch_len(area_len: usize) -> usize {
    area_len / 4
}

/// So many places of a list are enough for an area of a length: an entry takes 124 bytes of a sound area at least.
#[must_use]
pub const fn places(area_len: usize) -> usize {
    area_len / 124
}

/// So many bytes of room are enough for the dump of an area of a length.
#[must_use]
pub const fn room_len(area_len: usize) -> usize {
    area_len.saturating_mul(4)
}
