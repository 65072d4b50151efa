//! Batches that fill a body, and counts and lengths that are too high.

use engine::sql::pager::page::PAGE_SIZE;
use splitmix::mix;

use super::body::{Body, Value};
use super::case;
use crate::cases::Cases;

/// The body cut or filled up with zeros.
pub fn of_length(body: &Body, length: usize) -> Vec<u8> {
    let mut bytes = body.as_ref().to_vec();
    bytes.resize(length, 0);
    bytes
}

pub fn add_all(cases: &mut Cases) {
    tombstones(cases);
    null_columns(cases);
    claimed(cases);
    to_the_last_byte(cases);
    lengths(cases);
}

/// Zeros are tombstones with row id 0. 370 fit, 371 don't; a byte more or
/// less at the end. Then 370 with rows of their own.
fn tombstones(cases: &mut Cases) {
    for count in [1, 2, 369, 370, 371] {
        let end = 18 + 11 * usize::from(count);
        for length in [end - 11, end - 1, end, end + 1, PAGE_SIZE - 1, PAGE_SIZE] {
            let length = length.min(PAGE_SIZE);
            cases.add(case(of_length(&Body::new(1, count), length)));
        }
    }
    let rows = (0..370).fold(Body::new(1, 370), |body, row| {
        body.tombstone("", mix(row) as i64)
    });
    cases.add(case(rows));
}

/// Zeros are null columns with empty names. 1,355 fill the body.
fn null_columns(cases: &mut Cases) {
    for count in [1, 2, 1_354, 1_355, 1_356] {
        let end = 31 + 3 * usize::from(count);
        let row = Body::new(1, 1).present("", 5, count);
        for length in [end - 3, end - 2, end - 1, end, end + 1, PAGE_SIZE] {
            let length = length.min(PAGE_SIZE);
            cases.add(case(of_length(&row, length)));
        }
    }
}

/// More records and columns claimed than any body has.
fn claimed(cases: &mut Cases) {
    for count in [372, 4_096, 0x7fff, 0x8000, 0xff00, 0xffff] {
        for length in [18, 19, 28, 29, 30, PAGE_SIZE] {
            cases.add(case(of_length(&Body::new(1, count), length)));
        }
        let row = Body::new(1, 1).present("", 1, count);
        for length in [31, 32, 33, 34, PAGE_SIZE] {
            cases.add(case(of_length(&row, length)));
        }
    }
}

/// A last field that ends with the body: a byte less and it doesn't fit. The
/// texts are of NULs and the elements zeros; at last a text of letters.
fn to_the_last_byte(cases: &mut Cases) {
    let zeros = [0; PAGE_SIZE];
    let row = Body::new(1, 1).present("", 1, 1);
    for body in [
        Body::new(1, 1).tombstone(&zeros[..4_067], 0),
        row.clone().column(&zeros[..4_062], Value::Null),
        row.clone().column("", Value::Text(&zeros[..4_058])),
        row.clone().column("", Value::Vector(&[0; 1_014])),
    ] {
        let end = body.as_ref().len();
        for length in [end - 4, end - 1, end, PAGE_SIZE] {
            cases.add(case(of_length(&body, length)));
        }
    }
    let letters = "Höhe 北 5 € 😀, ".repeat(200);
    let text = &letters.as_bytes()[..letters.floor_char_boundary(4_056)];
    cases.add(case(row.column("", Value::Text(text))));
}

/// Lengths and counts around what is left of the body, and so high that a
/// sum or a product of 32 bits would come out low.
fn lengths(cases: &mut Cases) {
    let row = Body::new(1, 1).present("", 1, 1);
    for behind in [0u16, 1, 8, 100] {
        for length in [behind, behind + 1, 0xff, 0x100, 0x7fff, 0x8000, 0xffff] {
            let table = Body::new(1, 1).bytes([0]).bytes(length.to_le_bytes());
            let name = row.clone().bytes(length.to_le_bytes());
            for body in [table, name] {
                let end = body.as_ref().len() + usize::from(behind);
                cases.add(case(of_length(&body, end)));
            }
        }
    }
    let wide = |tag: u8, count: u32| {
        let column = row.clone().name("").bytes([tag]);
        column.bytes(count.to_le_bytes())
    };
    for behind in [0, 1, 4, 4_058] {
        for length in [behind, behind + 1].into_iter().chain(HIGH_LENGTHS) {
            let body = wide(3, length);
            cases.add(case(of_length(&body, 38 + behind as usize)));
        }
        for count in [behind / 4, behind / 4 + 1, behind, 1_014, 1_015]
            .into_iter()
            .chain(HIGH_LENGTHS)
        {
            let body = wide(5, count);
            cases.add(case(of_length(&body, 38 + behind as usize)));
        }
    }
}

/// Times 4 some of these are 0, 4 or 4,096 in 32 bits; 38 more than some is
/// 0 or 1.
const HIGH_LENGTHS: [u32; 14] = [
    0x1_0000,
    0x00ff_ffff,
    0x3fff_ffff,
    0x4000_0000,
    0x4000_0001,
    0x4000_0400,
    0x7fff_ffff,
    0x8000_0000,
    0x8000_0001,
    0xc000_0000,
    0xffff_ffda,
    0xffff_ffdb,
    0xffff_fffc,
    0xffff_ffff,
];
