//! The lent stores: 1,024 records of 7 bytes, 91 cells of 4.
//!
//! A slice of the right length becomes an array of records or cells once an
//! event, and is read and written where it lies.

use super::sheet::CELLS;
use super::wire::RECORD_LENGTH;
use super::RECORDS;

/// The program store.
pub type Program = [[u8; RECORD_LENGTH]; RECORDS];
/// The parameter store, big-endian two's complement.
pub type Cells = [[u8; 4]; CELLS];

/// A lent store as its records or cells, or `None` for another length.
#[inline(always)]
pub fn parts<const LENGTH: usize, const COUNT: usize>(
    bytes: &[u8],
) -> Option<&[[u8; LENGTH]; COUNT]> {
    let (parts, rest) = bytes.as_chunks();
    parts.try_into().ok().filter(|_| rest.is_empty())
}

/// The same of a store that may be written.
#[inline(always)]
pub fn parts_mut<const LENGTH: usize, const COUNT: usize>(
    bytes: &mut [u8],
) -> Option<&mut [[u8; LENGTH]; COUNT]> {
    let (parts, rest) = bytes.as_chunks_mut();
    parts.try_into().ok().filter(|_| rest.is_empty())
}

/// The number in a cell.
#[inline(always)]
pub fn read_cell(cells: &Cells, cell: usize) -> i32 {
    i32::from_be_bytes(cells[cell])
}

/// Puts a number into a cell.
#[inline(always)]
pub fn write_cell(cells: &mut Cells, cell: usize, value: i32) {
    cells[cell] = value.to_be_bytes();
}
