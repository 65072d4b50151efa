//! The calls of batches: reading any bytes, and building.

use lateenbael_sys as sys;
use sys::{Building, PAGE_SIZE, TextAnswer, TextPlace};

use crate::area::Area;
use crate::closed::{NO_BUILDING, no_batch, no_column, no_record, no_value};
use crate::edges;
use crate::forge;
use crate::world::{Call, World, Writes};

pub const CALLS: [Call; 16] = [
    ("from_utf8", from_utf8),
    ("mvcc_decode", decode),
    ("mvcc_decode_record", decode_record),
    ("mvcc_decode_column", decode_column),
    ("mvcc_decode_value", decode_value),
    ("mvcc_vector_bits", vector_bits),
    ("mvcc_canonicalize", canonicalize),
    ("mvcc_start", start),
    ("mvcc_add_tombstone", add_tombstone),
    ("mvcc_begin_present", begin_present),
    ("mvcc_add_null", add_null),
    ("mvcc_add_integer", add_integer),
    ("mvcc_add_real_bits", add_real_bits),
    ("mvcc_add_text", add_text),
    ("mvcc_add_bool", add_bool),
    ("mvcc_add_vector", add_vector),
];

/// A body: the one being built, cut or lengthened, a row, or a full one;
/// spoiled, or any bytes.
pub fn any_body(world: &mut World) -> Area<u8> {
    world.row = None;
    let mut bytes = match world.random.below(8) {
        0 | 1 => row(world),
        2 => full(world),
        _ => built(world),
    };
    let len = bytes.len();
    match world.random.below(5) {
        0 => edges::overwrite(&mut world.random, &mut bytes),
        1 if len > 0 => {
            let at = world.random.below(len.min(200));
            bytes[at] = world.random.u8();
        }
        2 if len > 18 => edges::overwrite(&mut world.random, &mut bytes[16..]),
        _ => {}
    }
    world.slice(&bytes)
}

fn built(world: &mut World) -> Vec<u8> {
    let mut bytes = world.body.bytes().to_vec();
    let len = match world.random.below(6) {
        0 => world.random.below(40),
        1 => world.random.below(PAGE_SIZE + 200),
        2 => (world.building.at as usize).min(PAGE_SIZE),
        _ => PAGE_SIZE,
    };
    bytes.resize(len, 0);
    bytes
}

/// A batch of one row with one column, a text: it and the names come near to
/// texts, as nothing that is built does.
fn row(world: &mut World) -> Vec<u8> {
    let [table, name, value] = [(); 3].map(|()| {
        let text = near_text(world);
        let len = text.bytes().len().min(300);
        text.bytes()[..len].to_vec()
    });
    let mut bytes = b"MVCC0001\0\0\0\0\0\0\0\0\x01\0".to_vec();
    let record = bytes.len();
    bytes.push(1);
    bytes.extend((table.len() as u16).to_le_bytes());
    bytes.extend(table);
    bytes.extend([0, 0, 0, 0, 0, 0, 0, 0, 1, 0]); // row id, column count
    let column = bytes.len();
    bytes.extend((name.len() as u16).to_le_bytes());
    bytes.extend(name);
    let tag = bytes.len();
    bytes.push(3);
    bytes.extend((value.len() as u32).to_le_bytes());
    bytes.extend(value);
    world.row = Some([record, column, tag]);
    bytes
}

/// A row with about as many columns as fit a page, or more claimed: the zeros
/// are null columns with empty names, then tombstones.
fn full(world: &mut World) -> Vec<u8> {
    let records = world.random.pick(&[1, 2, u16::MAX]);
    let columns = world.random.pick(&[1_000, 1_355, 1_356, u16::MAX]);
    let mut bytes = b"MVCC0001\0\0\0\0\0\0\0\0".to_vec();
    bytes.extend(records.to_le_bytes());
    bytes.extend([1, 0, 0, 0, 0, 0, 0, 0, 0, 0, 0]); // op, table, row id
    bytes.extend(columns.to_le_bytes());
    bytes.resize(world.random.between(PAGE_SIZE - 3, PAGE_SIZE + 3), 0);
    bytes
}

/// A cursor into a body: mostly where something begins.
fn cursor(world: &mut World) -> usize {
    match (world.random.below(6), world.row) {
        (0, _) => edges::number(&mut world.random) as usize,
        (1, _) => world.random.below(200),
        (2, _) => 18,
        (_, Some(begins)) => world.random.pick(&begins),
        (_, None) => world.random.pick(&world.begins),
    }
}

/// A text's place is inside the body, and has the number of characters that
/// the Standard's rule gives.
fn text_inside(world: &mut World, export: &str, text: TextPlace, body: &Area<u8>) {
    let TextPlace { start, len, chars } = text;
    world.inside(export, start, len, body.bytes().len());
    let bytes = body.bytes().get(start..).and_then(|rest| rest.get(..len));
    let rule = bytes.and_then(characters::count);
    if rule != Some(chars) {
        let what = format!("{chars} characters, by the rule {rule:?}");
        world.tally.fault(export, &what);
    }
}

/// What a value tells stands inside the body. Without a text or vector it has
/// no place, and without a text no characters.
fn value_inside(world: &mut World, export: &str, value: &sys::Value, body: &Area<u8>) {
    let TextPlace { start, len, chars } = value.place;
    match value.tag {
        3 => return text_inside(world, export, value.place, body),
        5 => world.inside(export, start, len.saturating_mul(4), body.bytes().len()),
        _ if (start, len) != (0, 0) => world.tally.fault(export, "a place of nothing"),
        _ => {}
    }
    if chars != 0 {
        world.tally.fault(export, "characters of what is no text");
    }
}

/// Beside a refusal every other number is 0.
fn refused(world: &mut World, export: &str, with_nothing: bool) {
    if !with_nothing {
        world.tally.fault(export, "refused with numbers");
    }
}

/// Bytes that are a text, or would be but for one of them or a cut.
fn near_text(world: &mut World) -> Area<u8> {
    let text = text(world);
    let mut bytes = text.bytes().to_vec();
    let at = world.random.below(bytes.len() + 1);
    match world.random.below(8) {
        0 => bytes.truncate(at),
        1 => drop(bytes.drain(..at)),
        2 => bytes.insert(at, world.random.u8()),
        3 if at < bytes.len() => bytes[at] = world.random.u8(),
        _ => {}
    }
    world.slice(&bytes)
}

fn from_utf8(world: &mut World, export: &'static str) {
    let mut text = near_text(world);
    let arg = text.lend_own();
    let answer = unsafe { sys::lateenbael_from_utf8(arg.at, arg.len) };
    world.end(export, answer.refusal, true, &Writes::default());
    let rule = by_the_rule(text.bytes());
    if answer != rule {
        let what = format!("{answer:?}, by the rule {rule:?}");
        world.tally.fault(export, &what);
    }
    world.unaltered(export, &text);
}

/// What is no text is refused with 19, and has no number.
fn by_the_rule(bytes: &[u8]) -> TextAnswer {
    match characters::count(bytes) {
        Some(chars) => TextAnswer { refusal: 0, chars },
        None => TextAnswer {
            refusal: 19,
            chars: 0,
        },
    }
}

fn decode(world: &mut World, export: &'static str) {
    let mut body = any_body(world);
    let arg = body.lend_own();
    let answer = unsafe { sys::lateenbael_mvcc_decode(arg.at, arg.len) };
    world.end(export, answer.refusal, true, &Writes::default());
    let (refusal, items) = (answer.refusal, answer.items);
    match refusal {
        0 => world.inside(export, answer.end, 0, arg.len),
        _ => refused(world, export, answer == no_batch(refusal, items)),
    }
    items_by_the_rule(world, export, &answer, body.bytes());
    world.unaltered(export, &body);
}

/// A body is read as far as document 01 says, and has as many items as
/// document 02 says.
fn items_by_the_rule(world: &mut World, export: &str, answer: &sys::Batch, body: &[u8]) {
    let rule = items::read(body);
    let (refusal, end) = match rule.outcome {
        Ok(end) => (0, end),
        Err(number) => (number.into(), 0),
    };
    if (answer.refusal, answer.end, answer.items) != (refusal, end, rule.items) {
        let what = format!("{answer:?}, by the rule {rule:?}");
        world.tally.fault(export, &what);
    }
    if body.len() <= items::LONGEST && answer.items > items::MOST {
        world.tally.fault(export, "more items than such a body has");
    }
}

fn decode_record(world: &mut World, export: &'static str) {
    let mut body = any_body(world);
    let at = cursor(world);
    let arg = body.lend_own();
    let answer = unsafe { sys::lateenbael_mvcc_decode_record(arg.at, arg.len, at) };
    world.end(export, answer.refusal, true, &Writes::default());
    let refusal = answer.refusal;
    if refusal == 0 {
        world.inside(export, answer.next, 0, arg.len);
        text_inside(world, export, answer.table, &body);
    } else {
        refused(world, export, answer == no_record(refusal));
    }
    world.unaltered(export, &body);
}

fn decode_column(world: &mut World, export: &'static str) {
    let mut body = any_body(world);
    let at = cursor(world);
    let arg = body.lend_own();
    let answer = unsafe { sys::lateenbael_mvcc_decode_column(arg.at, arg.len, at) };
    world.end(export, answer.refusal, true, &Writes::default());
    let refusal = answer.refusal;
    if refusal == 0 {
        world.inside(export, answer.next, 0, arg.len);
        text_inside(world, export, answer.name, &body);
        value_inside(world, export, &answer.value, &body);
    } else {
        refused(world, export, answer == no_column(refusal));
    }
    world.unaltered(export, &body);
}

fn decode_value(world: &mut World, export: &'static str) {
    let mut body = any_body(world);
    let at = cursor(world);
    let arg = body.lend_own();
    let answer = unsafe { sys::lateenbael_mvcc_decode_value(arg.at, arg.len, at) };
    world.end(export, answer.refusal, true, &Writes::default());
    let refusal = answer.refusal;
    if refusal == 0 {
        world.inside(export, answer.next, 0, arg.len);
        value_inside(world, export, &answer.value, &body);
    } else {
        refused(world, export, answer == no_value(refusal));
    }
    world.unaltered(export, &body);
}

fn vector_bits(world: &mut World, export: &'static str) {
    let mut body = any_body(world);
    let (first, count, index) = (cursor(world), cursor(world), cursor(world));
    let arg = body.lend_own();
    unsafe { sys::lateenbael_mvcc_vector_bits(arg.at, arg.len, first, count, index) };
    world.end(export, 0, true, &Writes::default());
    world.unaltered(export, &body);
}

fn canonicalize(world: &mut World, export: &'static str) {
    let mut body = any_body(world);
    let mut out = world.slice(&[0x55; PAGE_SIZE]);
    let arg = body.lend_own();
    let to = out.lend(&mut world.random);
    let refusal = unsafe { sys::lateenbael_mvcc_canonicalize(arg.at, arg.len, to.at, to.len) };
    world.end(export, refusal, to.right, &Writes::default());
    if refusal == 0 {
        out.adopt(&out.all());
    }
    world.unaltered(export, &out);
    world.unaltered(export, &body);
}

/// A call that builds: it is lent the body, and gives what it has become.
fn build(
    world: &mut World,
    export: &'static str,
    call: impl FnOnce(&mut World, *mut u8, usize) -> Building,
) {
    let arg = world.body.lend(&mut world.random);
    let building = call(world, arg.at, arg.len);
    world.end(export, building.refusal, arg.right, &Writes::default());
    if building.refusal == 0 {
        world.body.adopt(&world.body.all());
        world.building = building;
        world.inside(export, building.at as usize, 0, PAGE_SIZE);
    } else {
        let refusal = building.refusal;
        if building
            != (Building {
                refusal,
                ..NO_BUILDING
            })
        {
            world.tally.fault(export, "refused with a batch");
        }
        if !world.body.holds(&world.body.all()) {
            world.tally.fault(export, "a refused call altered the body");
            world.body.adopt(&world.body.all());
        }
    }
}

fn start(world: &mut World, export: &'static str) {
    build(world, export, |world, at, len| {
        let commit_ts = edges::number(&mut world.random);
        unsafe { sys::lateenbael_mvcc_start(at, len, commit_ts) }
    });
}

/// A name or text: mostly short and UTF-8, some with characters of every
/// length.
fn text(world: &mut World) -> Area<u8> {
    let len = match world.random.below(20) {
        0 => world.random.below(5_000),
        1 => 65_536 + world.random.below(10),
        2 => 0,
        _ => world.random.below(20),
    };
    let mut bytes = vec![b'a'; len];
    match world.random.below(10) {
        0 | 1 => edges::overwrite(&mut world.random, &mut bytes),
        2..6 => edges::characters(&mut world.random, &mut bytes),
        _ => {}
    }
    world.slice(&bytes)
}

/// A call that adds with a name.
fn add(
    world: &mut World,
    export: &'static str,
    call: impl FnOnce(&mut World, *mut u8, usize, Building, *const u8, usize) -> Building,
) {
    let mut name = text(world);
    let building = forge::building(&mut world.random, world.building);
    let arg = name.lend_own();
    // The record or column, and a column's value.
    let begin = building.at as usize;
    let k = world.random.below(world.begins.len() / 2) * 2;
    world.begins[k] = begin;
    world.begins[k + 1] = begin.saturating_add(2 + arg.len);
    build(world, export, |world, at, len| {
        call(world, at, len, building, arg.at, arg.len)
    });
    world.unaltered(export, &name);
}

fn add_tombstone(world: &mut World, export: &'static str) {
    add(world, export, |world, at, len, building, name, name_len| {
        let rowid = edges::number(&mut world.random) as i64;
        unsafe { sys::lateenbael_mvcc_add_tombstone(at, len, building, name, name_len, rowid) }
    });
}

fn begin_present(world: &mut World, export: &'static str) {
    add(world, export, |world, at, len, building, name, name_len| {
        let rowid = edges::number(&mut world.random) as i64;
        unsafe { sys::lateenbael_mvcc_begin_present(at, len, building, name, name_len, rowid) }
    });
}

fn add_null(world: &mut World, export: &'static str) {
    add(
        world,
        export,
        |_, at, len, building, name, name_len| unsafe {
            sys::lateenbael_mvcc_add_null(at, len, building, name, name_len)
        },
    );
}

fn add_integer(world: &mut World, export: &'static str) {
    add(world, export, |world, at, len, building, name, name_len| {
        let value = edges::number(&mut world.random) as i64;
        unsafe { sys::lateenbael_mvcc_add_integer(at, len, building, name, name_len, value) }
    });
}

fn add_real_bits(world: &mut World, export: &'static str) {
    add(world, export, |world, at, len, building, name, name_len| {
        let bits = edges::number(&mut world.random);
        unsafe { sys::lateenbael_mvcc_add_real_bits(at, len, building, name, name_len, bits) }
    });
}

fn add_bool(world: &mut World, export: &'static str) {
    add(world, export, |world, at, len, building, name, name_len| {
        let value = edges::number(&mut world.random) as u32;
        unsafe { sys::lateenbael_mvcc_add_bool(at, len, building, name, name_len, value) }
    });
}

fn add_text(world: &mut World, export: &'static str) {
    let mut value = text(world);
    let arg = value.lend_own();
    add(
        world,
        export,
        |_, at, len, building, name, name_len| unsafe {
            sys::lateenbael_mvcc_add_text(at, len, building, name, name_len, arg.at, arg.len)
        },
    );
    world.unaltered(export, &value);
}

fn add_vector(world: &mut World, export: &'static str) {
    let mut value = text(world);
    let arg = value.lend_own();
    add(
        world,
        export,
        |_, at, len, building, name, name_len| unsafe {
            sys::lateenbael_mvcc_add_vector(at, len, building, name, name_len, arg.at, arg.len)
        },
    );
    world.unaltered(export, &value);
}

#[cfg(test)]
mod tests {
    use super::*;

    /// What is found wrong with an answer for two tombstones, cut short.
    fn faults(answer: sys::Batch) -> usize {
        let mut world = World::new(1, 0);
        let body = b"MVCC0001\0\0\0\0\0\0\0\0\x02\0\0\0\0\0\0\0\0\0\0\0\0";
        items_by_the_rule(&mut world, "mvcc_decode", &answer, body);
        world.tally.faults
    }

    #[test]
    fn another_number_of_items_is_a_fault() {
        assert_eq!(faults(no_batch(17, 1)), 0);
        assert_eq!(faults(no_batch(17, 0)), 1);
        assert_eq!(faults(no_batch(17, 2)), 1);
        assert_eq!(faults(no_batch(18, 1)), 1);
        assert_eq!(faults(no_batch(17, items::MOST + 1)), 2);
    }
}
