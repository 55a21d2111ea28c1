//! The parameter sheet: which parameters there are, their ranges, defaults,
//! access and cells.

/// Axis parameters on the sheet.
pub const AXIS: usize = 43;
/// Axis parameters that have a cell (RWE).
pub const STORED_AXIS: usize = 31;
/// User variables, bank 2.
pub const USER_VARIABLES: usize = 56;
/// Cells of the parameter store.
pub const CELLS: usize = STORED_AXIS + 4 + USER_VARIABLES;
/// Bytes of the parameter store.
pub const CELLS_LENGTH: usize = CELLS * 4;

/// Cell of global 66.
pub const CELL_66: usize = STORED_AXIS;
/// Cell of global 73.
pub const CELL_73: usize = STORED_AXIS + 1;
/// Cell of global 76.
pub const CELL_76: usize = STORED_AXIS + 2;
/// Cell of global 77.
pub const CELL_77: usize = STORED_AXIS + 3;
/// Cell of user variable 0.
pub const CELL_USER: usize = STORED_AXIS + 4;

/// The defaults of globals 66, 73, 76 and 77.
pub const DEFAULT_66: u8 = 1;
pub const DEFAULT_73: i32 = 0;
pub const DEFAULT_76: u8 = 2;
pub const DEFAULT_77: i32 = 0;

/// The number that locks, that resets and that restores defaults.
pub const KEY: i32 = 1234;
/// The number that unlocks.
pub const UNLOCK: i32 = 4321;

/// Whether a global of bank 0 may be set to a value; `None` for a type that
/// cannot be set.
#[inline(always)]
pub fn global_allows(kind: u8, value: i32) -> Option<bool> {
    match kind {
        66 => Some((1..=255).contains(&value)),
        73 => Some(value == KEY || value == UNLOCK),
        76 => Some((0..=255).contains(&value)),
        77 => Some((0..=1).contains(&value)),
        _ => None,
    }
}

/// What may be done with a parameter.
#[derive(Clone, Copy, Debug, PartialEq, Eq)]
pub enum Access {
    /// RWE: set, read, stored in its cell and restored from it.
    Stored,
    /// RW: set and read.
    Written,
    /// R: read.
    Read,
}

/// One axis parameter.
#[derive(Clone, Copy, Debug)]
pub struct Row {
    pub number: u8,
    pub low: i32,
    pub high: i32,
    /// A number between the ends that is not allowed all the same.
    pub gap: Option<i32>,
    pub default: i32,
    pub access: Access,
}

impl Row {
    /// Whether the parameter may have this value.
    #[inline(always)]
    pub fn allows(&self, value: i32) -> bool {
        self.low <= value && value <= self.high && self.gap != Some(value)
    }
}

const fn row(number: u8, low: i32, high: i32, default: i32, access: Access) -> Row {
    Row { number, low, high, gap: None, default, access }
}

const fn stored(number: u8, low: i32, high: i32, default: i32) -> Row {
    row(number, low, high, default, Access::Stored)
}

const fn stored_but(number: u8, high: i32, gap: i32, default: i32) -> Row {
    Row { number, low: 0, high, gap: Some(gap), default, access: Access::Stored }
}

const fn written(number: u8, low: i32, high: i32) -> Row {
    row(number, low, high, 0, Access::Written)
}

const fn read(number: u8, low: i32, high: i32, default: i32) -> Row {
    row(number, low, high, default, Access::Read)
}

/// The axis parameters by rising number.
pub static ROWS: [Row; AXIS] = SHEET;

const SHEET: [Row; AXIS] = [
    stored(10, 1, 255, 4),
    stored(11, 0, 18_000, 2_000),
    stored_but(14, 3, 2, 3),
    stored(15, 0, 3, 0),
    stored(43, 0, 200_000, 4_000),
    stored(44, 0, 100_000, 2_000),
    stored(47, 0, 200_000, 10),
    written(50, i32::MIN, i32::MAX),
    read(51, i32::MIN, i32::MAX, 0),
    written(52, i32::MIN, i32::MAX),
    stored(53, 0, 100_000, 50),
    stored(54, 0, 200_000, 500),
    read(55, 0, 1, 0),
    stored(56, 6, i32::MAX, 65_536),
    stored(70, 0, 32_767, 300),
    stored(71, 0, 32_767, 300),
    stored(72, 0, 32_767, 300),
    stored(73, 0, 32_767, 100),
    stored(74, 0, 32_767, 50),
    stored(90, 0, 1, 0),
    stored(91, 0, 1, 0),
    stored(92, 0, 1, 0),
    stored(93, -32_768, 32_767, 0),
    stored(100, 0, 16_777_215, 4_096),
    stored(101, 0, 1, 0),
    stored_but(102, 2, 1, 0),
    stored(104, 0, 10_000, 1_000),
    stored(105, -200_000, 200_000, 100),
    stored(106, 0, 65_535, 0),
    stored(107, 0, 1, 0),
    stored(108, 0, 1, 0),
    stored(110, 25_000, 100_000, 25_000),
    stored(140, 0, 1, 0),
    stored(141, 60, 300, 300),
    stored(142, 0, 50, 5),
    written(209, 0, 7),
    written(210, 0, 7),
    read(211, 0, 1, 0),
    read(212, 0, 1, 0),
    read(213, 0, 1, 0),
    read(220, 0, 1_000, 240),
    read(221, -20, 150, 0),
    written(240, i32::MIN, i32::MAX),
];

const NOWHERE: u8 = u8::MAX;

/// For each parameter number its row, or `NOWHERE`.
static PLACES: [u8; 256] = places();
/// For each row its cell, or `NOWHERE`.
static CELL_OF_ROW: [u8; AXIS] = cells_of_rows();
/// For each cell of an axis parameter its row.
pub static STORED_PLACES: [usize; STORED_AXIS] = stored_places();
/// The rows' defaults.
pub const DEFAULTS: [i32; AXIS] = defaults();

const fn places() -> [u8; 256] {
    let mut places = [NOWHERE; 256];
    let mut place = 0;
    while place < AXIS {
        places[SHEET[place].number as usize] = place as u8;
        place += 1;
    }
    places
}

const fn cells_of_rows() -> [u8; AXIS] {
    let mut cells = [NOWHERE; AXIS];
    let places = stored_places();
    let mut cell = 0;
    while cell < STORED_AXIS {
        cells[places[cell]] = cell as u8;
        cell += 1;
    }
    cells
}

const fn stored_places() -> [usize; STORED_AXIS] {
    let mut places = [0; STORED_AXIS];
    let (mut place, mut cell) = (0, 0);
    while place < AXIS {
        if matches!(SHEET[place].access, Access::Stored) {
            places[cell] = place;
            cell += 1;
        }
        place += 1;
    }
    places
}

const fn defaults() -> [i32; AXIS] {
    let mut defaults = [0; AXIS];
    let mut place = 0;
    while place < AXIS {
        defaults[place] = SHEET[place].default;
        place += 1;
    }
    defaults
}

/// The rows' ranges as one signed comparison each: a value is in range if,
/// less its start, it is not above its span. Both are moved down by half of
/// all numbers, so that what lies below the low end comes out above the span.
struct Ranges {
    starts: [i32; AXIS],
    spans: [i32; AXIS],
}

static RANGES: Ranges = ranges();

const fn ranges() -> Ranges {
    let mut ranges = Ranges { starts: [0; AXIS], spans: [0; AXIS] };
    let mut place = 0;
    while place < AXIS {
        let Row { low, high, .. } = SHEET[place];
        ranges.starts[place] = low.wrapping_add(i32::MIN);
        ranges.spans[place] = high.wrapping_sub(low).wrapping_add(i32::MIN);
        place += 1;
    }
    ranges
}

/// The rows with a gap; `all_allowed` looks at them by name.
const P14: usize = 2;
const P102: usize = 25;

/// Whether each parameter may have its value: `Row::allows` for all of them
/// at once, without a branch, so that the compiler tests four at a time.
#[inline(always)]
pub fn all_allowed(values: &[i32; AXIS]) -> bool {
    let mut outside = 0;
    for (value, (start, span)) in values.iter().zip(RANGES.starts.iter().zip(&RANGES.spans)) {
        outside |= i32::from(value.wrapping_sub(*start) > *span);
    }
    (outside == 0) & (values[P14] != 2) & (values[P102] != 1)
}

/// The place and the row of an axis parameter's number.
#[inline(always)]
pub fn row_of(number: u8) -> Option<(usize, &'static Row)> {
    let place = usize::from(PLACES[usize::from(number)]);
    ROWS.get(place).map(|row| (place, row))
}

/// The place of an axis parameter's number.
pub fn place_of(number: u8) -> Option<usize> {
    row_of(number).map(|(place, _)| place)
}

/// The place and the row of a parameter that may be set.
#[inline(always)]
pub fn settable(number: u8) -> Option<(usize, &'static Row)> {
    row_of(number).filter(|(_, row)| row.access != Access::Read)
}

/// The place and the cell of a parameter that is stored.
#[inline(always)]
pub fn stored_cell(number: u8) -> Option<(usize, usize)> {
    let (place, _) = row_of(number)?;
    let cell = usize::from(CELL_OF_ROW[place]);
    (cell < STORED_AXIS).then_some((place, cell))
}

#[cfg(test)]
mod tests {
    use super::*;

    #[test]
    fn rows_rise_and_defaults_are_allowed() {
        assert!(ROWS.windows(2).all(|pair| pair[0].number < pair[1].number));
        assert!(ROWS.iter().all(|row| row.allows(row.default)));
    }

    #[test]
    fn cells_follow_the_stored_rows() {
        let stored = ROWS.iter().filter(|row| row.access == Access::Stored).count();
        assert_eq!(stored, STORED_AXIS);
        assert_eq!(stored_cell(10), Some((0, 0)));
        assert_eq!(stored_cell(142), Some((34, 30)));
        assert_eq!(stored_cell(50), None);
        assert_eq!(place_of(0), None);
        assert_eq!((CELLS, CELLS_LENGTH), (91, 364));
    }

    #[test]
    fn all_rows_at_once_are_the_rows_one_by_one() {
        assert!(all_allowed(&DEFAULTS));
        for (place, row) in ROWS.iter().enumerate() {
            let ends =
                [row.low, row.high, row.default, row.gap.unwrap_or(0), 0, i32::MIN, i32::MAX];
            for value in
                ends.into_iter().flat_map(|end| (-2..=2).map(move |by| end.wrapping_add(by)))
            {
                let mut values = DEFAULTS;
                values[place] = value;
                assert_eq!(all_allowed(&values), row.allows(value), "{}: {value}", row.number);
            }
        }
    }
}
