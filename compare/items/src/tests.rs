//! Bodies whose items are counted by hand.

use super::{LONGEST, MOST, Reading, read};
use splitmix::Random;

/// A body: its heading with a record count, and the bytes behind it.
fn body(records: u16, behind: &[u8]) -> Vec<u8> {
    let heading = [&b"MVCC0001\x09\0\0\0\0\0\0\0"[..], &records.to_le_bytes()];
    [&heading.concat(), behind].concat()
}

/// With zeros behind up to a length. Zeros are rows that are gone, of empty
/// tables, or null columns with empty names.
fn zeros_to(mut body: Vec<u8>, length: usize) -> Vec<u8> {
    body.resize(length, 0);
    body
}

fn ends(end: usize, items: usize) -> Reading {
    Reading {
        outcome: Ok(end),
        items,
    }
}

fn refused(number: u8, items: usize) -> Reading {
    Reading {
        outcome: Err(number),
        items,
    }
}

/// Row 7 of table t is gone; it is there, with so many columns.
const GONE: &[u8] = b"\0\x01\0t\x07\0\0\0\0\0\0\0";
const THERE: &[u8] = b"\x01\x01\0t\x07\0\0\0\0\0\0\0";

/// A column of each kind, the name c.
const COLUMNS: [&[u8]; 6] = [
    b"\x01\0c\0",
    b"\x01\0c\x01\xff\xff\xff\xff\xff\xff\xff\xff",
    b"\x01\0c\x02\0\0\0\0\0\0\xf8\x7f",
    b"\x01\0c\x03\x02\0\0\0\xc3\xa9",
    b"\x01\0c\x04\x02",
    b"\x01\0c\x05\x02\0\0\0\0\0\x80\x3f\0\0\0\x80",
];

/// A row that is gone, one with a column of each kind, and one that is gone.
fn mixed() -> Vec<u8> {
    let parts = [GONE, THERE, b"\x06\0", &COLUMNS.concat(), GONE];
    body(3, &parts.concat())
}

/// Where each item of it is read to its end.
fn ends_of_mixed() -> Vec<usize> {
    let lengths = [GONE.len(), THERE.len() + 2];
    let columns = COLUMNS.map(<[u8]>::len);
    let mut at = 18;
    let all = lengths.into_iter().chain(columns).chain([GONE.len()]);
    all.map(|length| {
        at += length;
        at
    })
    .collect()
}

#[test]
fn records_and_columns_are_items() {
    assert_eq!(read(&body(0, b"")), ends(18, 0));
    assert_eq!(read(&body(0, GONE)), ends(18, 0));
    assert_eq!(read(&body(1, GONE)), ends(30, 1));
    assert_eq!(read(&body(2, &GONE.repeat(3))), ends(42, 2));
    assert_eq!(read(&body(1, &[THERE, b"\0\0"].concat())), ends(32, 1));
    for column in COLUMNS {
        let row = [THERE, b"\x01\0", column].concat();
        assert_eq!(read(&body(1, &row)), ends(32 + column.len(), 2));
    }
    assert_eq!(mixed().len(), 115);
    assert_eq!(read(&mixed()), ends(115, 9));
    assert_eq!(read(&zeros_to(mixed(), 4_096)), ends(115, 9));
}

#[test]
fn what_is_printed() {
    assert_eq!(read(&mixed()).to_string(), "end 115 items 9");
    assert_eq!(read(&mixed()[..114]).to_string(), "refused 17 items 8");
}

#[test]
fn a_cut_has_the_items_that_end_in_it() {
    let (body, ends_at) = (mixed(), ends_of_mixed());
    assert_eq!(ends_at.last(), Some(&body.len()));
    for length in 0..body.len() {
        let items = ends_at.iter().filter(|end| **end <= length).count();
        let number = if length < 18 { 2 } else { 17 };
        assert_eq!(read(&body[..length]), refused(number, items), "{length}");
    }
}

/// The heading alone decides, whatever stands behind it.
#[test]
fn a_bad_heading_has_no_items() {
    assert_eq!(read(b""), refused(2, 0));
    assert_eq!(read(&mixed()[..17]), refused(2, 0));
    assert_eq!(read(b"no batch at all"), refused(2, 0));
    let mut other = mixed();
    other[7] = b'2';
    assert_eq!(read(&other), refused(3, 0));
    assert_eq!(read(&[0; 4_096]), refused(3, 0));
}

/// Its table and its row id are read before it is judged; it counts nothing.
#[test]
fn an_unknown_op() {
    let unknown = [b"\x02", &GONE[1..]].concat();
    assert_eq!(read(&body(1, &unknown)), refused(18, 0));
    assert_eq!(read(&body(1, &unknown[..11])), refused(17, 0));
    assert_eq!(read(&body(2, &[GONE, &unknown].concat())), refused(18, 1));
    let no_text = b"\xff\x01\0\xff\x07\0\0\0\0\0\0\0";
    assert_eq!(read(&body(1, no_text)), refused(19, 0));
}

/// A record counts once its column count is read, whatever its columns are.
#[test]
fn a_refused_column_does_not_count_but_its_record_does() {
    let with_columns =
        |columns: &[&[u8]]| body(2, &[GONE, THERE, b"\x03\0", &columns.concat()].concat());
    let null = COLUMNS[0];
    for (column, number) in [
        (&b"\x01\0\xff\0"[..], 19),           // a name that is no text
        (b"\xff\xff", 17),                    // a name too long
        (b"\x01\0c\x06", 18),                 // an unknown tag
        (b"\x01\0c", 17),                     // no tag
        (b"\x01\0c\x01\0\0\0\0\0\0\0", 17),   // an integer of seven bytes
        (b"\x01\0c\x03\x01\0\0\0\xc3", 19),   // a value that is no text
        (b"\x01\0c\x03\x02\0\0\0c", 17),      // a text too long
        (b"\x01\0c\x04", 17),                 // no bool
        (b"\x01\0c\x05\x01\0\0\0\0\0\0", 17), // an element of three bytes
        (b"\x01\0c\x05\0\0\0\x40", 17),       // elements of 2^32 bytes
    ] {
        assert_eq!(
            read(&with_columns(&[column])),
            refused(number, 2),
            "{column:02x?}"
        );
        let second = with_columns(&[null, column]);
        assert_eq!(read(&second), refused(number, 3), "{column:02x?}");
    }
}

#[test]
fn document_01s_fullest_batches() {
    for (records, items) in [(369, 369), (370, 370)] {
        let body = zeros_to(body(records, b""), 4_096);
        assert_eq!(read(&body), ends(18 + 11 * items, items));
    }
    assert_eq!(read(&zeros_to(body(371, b""), 4_096)), refused(17, 370));
    for (columns, items) in [(1_354, MOST - 1), (1_355, MOST)] {
        let body = zeros_to(row(columns), 4_096);
        assert_eq!(read(&body), ends(31 + 3 * usize::from(columns), items));
    }
    assert_eq!(read(&zeros_to(row(1_356), 4_096)), refused(17, MOST));
}

/// A row of an empty table, up to its column count.
fn row(columns: u16) -> Vec<u8> {
    let row = [&[1][..], &[0; 10], &columns.to_le_bytes()];
    body(1, &row.concat())
}

#[test]
fn counts_that_no_body_has() {
    let most = zeros_to(body(u16::MAX, b""), 4_096);
    assert_eq!(read(&most), refused(17, 370));
    let most = zeros_to(row(u16::MAX), 4_096);
    assert_eq!(read(&most), refused(17, MOST));
    let mut records = zeros_to(row(1_355), 4_096);
    records[16..18].fill(0xff);
    assert_eq!(read(&records), refused(17, MOST));
}

/// 4,096 bytes have the most items; the next comes with three bytes more.
#[test]
fn longer_bodies_have_more() {
    for length in 4_096..=LONGEST {
        assert_eq!(read(&zeros_to(row(1_356), length)), refused(17, MOST));
    }
    let longer = zeros_to(row(1_356), LONGEST + 1);
    assert_eq!(read(&longer), ends(LONGEST + 1, MOST + 1));
}

/// Bytes that come near to a heavy body: mostly zeros, with small numbers and
/// high counts among them.
fn drawn(random: &mut Random) -> Vec<u8> {
    let length = random.pick(&[18, 60, 500, 4_096, LONGEST]);
    let front = match random.below(3) {
        0 => body(random.pick(&[1, 3, u16::MAX]), b""),
        1 => row(random.pick(&[5, 1_355, u16::MAX])),
        _ => mixed(),
    };
    let mut bytes = zeros_to(front, length);
    for _ in 0..random.below(6) {
        let at = random.between(16, length - 1);
        bytes[at] = random.pick(&[0, 0, 1, 1, 2, 3, 4, 5, 6, 0x80, 0xff]);
    }
    bytes
}

/// What a body of a length has at most: a row that is gone takes eleven bytes
/// behind the heading, one that is there thirteen, a column three.
fn most(length: usize) -> usize {
    match length {
        0..29 => 0,
        29..31 => 1,
        _ => 1 + (length - 31) / 3,
    }
}

#[test]
fn no_drawn_body_has_more() {
    assert_eq!(
        [4_096, LONGEST, LONGEST + 1].map(most),
        [MOST, MOST, MOST + 1]
    );
    let mut random = Random::new(14);
    let mut heaviest = 0;
    for _ in 0..20_000 {
        let bytes = drawn(&mut random);
        let Reading { outcome, items } = read(&bytes);
        let end = outcome.unwrap_or(bytes.len());
        assert!(items <= most(end) && end <= bytes.len(), "{bytes:02x?}");
        heaviest = heaviest.max(items);
    }
    assert_eq!(heaviest, MOST);
}
