//! A batch printed by the port's own decoders, through the C interface. What
//! is printed has no number of characters or items, so each is looked at here.

use items::Reading;
use lateenbael::sys;
use lists::hex;

use crate::side::Recovered;

/// The number of a body's records, or the refusal's number.
pub fn records(body: &[u8]) -> Result<usize, u32> {
    let batch = decoded(body);
    match batch.refusal {
        0 => Ok(batch.records),
        number => Err(number),
    }
}

pub fn decode(body: &[u8]) -> sys::Batch {
    // Safety: the body is lent whole, and only read.
    unsafe { sys::lateenbael_mvcc_decode(body.as_ptr(), body.len()) }
}

/// How far a body was read, and how many items.
pub fn reading_of(batch: &sys::Batch) -> Reading {
    let refusal = u8::try_from(batch.refusal).expect("a refusal's number");
    Reading {
        outcome: match refusal {
            0 => Ok(batch.end),
            number => Err(number),
        },
        items: batch.items,
    }
}

/// The answer for a body, which is read as far as the rule says.
fn decoded(body: &[u8]) -> sys::Batch {
    by_the_rule(decode(body), body)
}

fn by_the_rule(batch: sys::Batch, body: &[u8]) -> sys::Batch {
    let rule = items::read(body);
    let digits = || hex::digits(body);
    assert_eq!(reading_of(&batch), rule, "items of the body {}", digits());
    batch
}

/// A body that decodes, printed.
pub fn printed(body: &[u8]) -> Recovered {
    let batch = decoded(body);
    assert_eq!(batch.refusal, 0, "a recovered batch decodes");
    let mut lines = vec![format!("batch {} {}", batch.commit_ts, batch.records)];
    let mut at = 18;
    for index in 0..batch.records {
        at = record(body, index, at, &mut lines);
    }
    let mut encoded = vec![0xee; sys::PAGE_SIZE];
    // Safety: the body is lent whole and only read, the buffer is written.
    let refusal = unsafe {
        let (out, length) = (encoded.as_mut_ptr(), encoded.len());
        sys::lateenbael_mvcc_canonicalize(body.as_ptr(), body.len(), out, length)
    };
    assert_eq!(refusal, 0, "a recovered batch can be written");
    lines.push(format!("encoded {}", hex::digits(&encoded)));
    Recovered {
        time: batch.commit_ts,
        records: batch.records,
        lines,
        encoded,
    }
}

/// Prints a record and its columns; answers the next one's cursor.
fn record(body: &[u8], index: usize, at: usize, lines: &mut Vec<String>) -> usize {
    // Safety: the body is lent whole, and only read.
    let record = unsafe { sys::lateenbael_mvcc_decode_record(body.as_ptr(), body.len(), at) };
    assert_eq!(record.refusal, 0, "a record of a batch that decodes");
    let table = text(body, record.table);
    let (kind, count) = match record.op {
        0 => ("tombstone", String::new()),
        _ => ("present", format!(" {}", record.count)),
    };
    lines.push(format!(
        "record {index} {kind} {table} {}{count}",
        record.rowid
    ));
    let mut at = record.first;
    for index in 0..record.count {
        // Safety: as above.
        let column = unsafe { sys::lateenbael_mvcc_decode_column(body.as_ptr(), body.len(), at) };
        assert_eq!(column.refusal, 0, "a column of a batch that decodes");
        let name = text(body, column.name);
        lines.push(format!(
            "column {index} {name} {}",
            value(body, &column.value)
        ));
        at = column.next;
    }
    record.next
}

fn value(body: &[u8], value: &sys::Value) -> String {
    if value.tag != 3 {
        assert_eq!(value.place.chars, 0, "characters of a value that is none");
    }
    match value.tag {
        0 => "null".to_string(),
        1 => format!("integer {}", value.integer),
        2 => format!("real {:016x}", value.bits),
        3 => format!("text {}", text(body, value.place)),
        4 => format!("bool {}", value.flag != 0),
        5 => {
            let elements = (0..value.place.len).map(|index| element(body, value.place, index));
            format!("vector {}{}", value.place.len, elements.collect::<String>())
        }
        tag => format!("tag {tag}"),
    }
}

fn element(body: &[u8], vector: sys::TextPlace, index: usize) -> String {
    // Safety: the body is lent whole, and only read.
    let element = unsafe {
        let (start, count) = (vector.start, vector.len);
        sys::lateenbael_mvcc_vector_bits(body.as_ptr(), body.len(), start, count, index)
    };
    match element.found {
        0 => " -".to_string(),
        _ => format!(" {:08x}", element.bits),
    }
}

/// A text, whose place carries the number that the Standard's rule gives.
fn text(body: &[u8], place: sys::TextPlace) -> String {
    let bytes = &body[place.start..place.start + place.len];
    let digits = hex::digits(bytes);
    let rule = characters::count(bytes);
    assert_eq!(Some(place.chars), rule, "characters of the text {digits}");
    match bytes {
        [] => "-".to_string(),
        _ => digits,
    }
}

#[cfg(test)]
mod tests {
    use super::*;
    use lists::batch::body::{Body, Value};

    /// A row with wide characters in all three places, as the Rust prints it.
    #[test]
    fn a_batch_with_wide_characters_is_printed() {
        let row = Body::new(9, 1).present("Süd", -1, 2);
        let row = row.column("–", Value::Text("🚡 7".as_bytes()));
        let row = row.column("", Value::Vector(&[0]));
        let lines = printed(row.as_ref()).lines;
        let wanted = [
            "batch 9 1",
            "record 0 present 53c3bc64 -1 2",
            "column 0 e28093 text f09f9aa12037",
            "column 1 - vector 1 00000000",
        ];
        assert_eq!(lines[..4], wanted);
    }

    /// A row with one column, with another number of items, refusal or end.
    fn with_items(refusal: u32, end: usize, items: usize) {
        let row = Body::new(9, 1).present("t", 1, 1);
        let row = row.column("c", Value::Null);
        let batch = sys::Batch {
            refusal,
            commit_ts: 9,
            records: 1,
            end,
            items,
        };
        by_the_rule(batch, row.as_ref());
    }

    #[test]
    fn the_right_items_pass() {
        with_items(0, 36, 2);
    }

    #[test]
    #[should_panic(expected = "items of the body 4d56434330303031")]
    fn a_record_without_its_column_is_a_difference() {
        with_items(0, 36, 1);
    }

    #[test]
    #[should_panic(expected = "items of the body 4d56434330303031")]
    fn another_end_is_a_difference() {
        with_items(0, 35, 2);
    }

    #[test]
    #[should_panic(expected = "items of the body 4d56434330303031")]
    fn a_refusal_is_a_difference() {
        with_items(17, 0, 2);
    }

    /// The front of a body as a value of that tag, with so many characters.
    fn with_number(tag: u32, len: usize, chars: usize) -> String {
        let place = sys::TextPlace {
            start: 0,
            len,
            chars,
        };
        let of = sys::Value {
            tag,
            flag: 0,
            integer: 0,
            bits: 0,
            place,
        };
        value("Süd".as_bytes(), &of)
    }

    #[test]
    fn the_right_number_passes() {
        assert_eq!(with_number(3, 4, 3), "text 53c3bc64");
        assert_eq!(with_number(5, 1, 0), "vector 1 64bcc353");
    }

    #[test]
    #[should_panic(expected = "characters of the text 53c3bc64")]
    fn the_number_of_bytes_is_a_difference() {
        with_number(3, 4, 4);
    }

    #[test]
    #[should_panic(expected = "characters of a value that is none")]
    fn a_vector_has_no_characters() {
        with_number(5, 1, 1);
    }
}
