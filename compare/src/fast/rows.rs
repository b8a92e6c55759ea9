//! Rows and their 16 bytes.

pub const ROWS: usize = 4_096;
pub const ROW: usize = 16;

pub const BEGIN: u8 = 1;
pub const CHANGE: u8 = 2;
pub const HAND_OVER: u8 = 3;
pub const UNDO: u8 = 4;
pub const COMMIT: u8 = 5;
pub const ABORT: u8 = 6;
pub const HAND_OVER_ALL: u8 = 7;

/// For each kind, bit b is set if byte b may be other than zero.
const NAMED: [u16; 8] = [
    0,
    0b0100_0011_0011,
    0b0111_0011_1011,
    0b1100_0011_1111,
    0b0111_1111_1011,
    0b0100_0011_0011,
    0b0100_0011_0011,
    0b1100_0011_0111,
];

#[derive(Clone, Copy, Default)]
pub struct Row {
    pub kind: u8,
    pub visit: u16,
    pub receiver: u16,
    pub cell: u8,
    pub number: u16,
    pub undone: u16,
    pub change: i16,
}

impl Row {
    pub fn decode(b: &[u8; ROW]) -> Row {
        Row {
            kind: b[0],
            visit: u16::from_le_bytes([b[1], b[10]]),
            receiver: u16::from_le_bytes([b[2], b[11]]),
            cell: b[3],
            number: u16::from_le_bytes([b[4], b[5]]),
            undone: u16::from_le_bytes([b[6], b[7]]),
            change: i16::from_le_bytes([b[8], b[9]]),
        }
    }

    pub fn encode(&self) -> [u8; ROW] {
        let [n0, n1] = self.number.to_le_bytes();
        let [u0, u1] = self.undone.to_le_bytes();
        let [c0, c1] = self.change.to_le_bytes();
        let [v0, v1] = self.visit.to_le_bytes();
        let [r0, r1] = self.receiver.to_le_bytes();
        [self.kind, v0, r0, self.cell, n0, n1, u0, u1, c0, c1, v1, r1, 0, 0, 0, 0]
    }

    pub fn is_change_or_undo(&self) -> bool {
        self.kind == CHANGE || self.kind == UNDO
    }

    /// The row that takes back the change in row `number`.
    pub fn undo(change: &Row, number: u16, holder: u16) -> Row {
        Row {
            kind: UNDO,
            visit: holder,
            cell: change.cell,
            undone: number,
            change: change.change,
            ..Row::default()
        }
    }

    pub fn abort(visit: u16) -> Row {
        Row { kind: ABORT, visit, ..Row::default() }
    }
}

/// Whether the kind is known and every byte that is not named for it is zero.
pub fn named_bytes_only(b: &[u8; ROW]) -> bool {
    match NAMED.get(usize::from(b[0])) {
        Some(named) => (0..ROW).all(|i| b[i] == 0 || named >> i & 1 == 1),
        None => false,
    }
}

pub fn row_at(bytes: &[u8], index: usize) -> Option<&[u8; ROW]> {
    bytes.get(index * ROW..)?.first_chunk()
}

/// The rows of log and tail by their number.
pub struct Rows<'a> {
    pub log: &'a [u8],
    pub stored: u16,
    pub tail: &'a [u8],
}

impl Rows<'_> {
    /// The row with this number, or a row of zeros where there is none.
    pub fn get(&self, number: u16) -> Row {
        let bytes = match (number, number.checked_sub(self.stored + 1)) {
            (0, _) => None,
            (_, None) => row_at(self.log, usize::from(number) - 1),
            (_, Some(place)) => row_at(self.tail, usize::from(place)),
        };
        bytes.map_or(Row::default(), Row::decode)
    }
}
