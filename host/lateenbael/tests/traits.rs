//! What a Rust user expects of the crate's types.
use lateenbael::{
    Area, Batch, BatchBuilder, DbHeader, Engine, Error, Files, Mode, OpenOptions, PowerCut, Preview, Refusal, Report, Snapshot, Store,
    Text, Value, Vector,
};
use std::collections::HashSet;
use std::fmt::Debug;

fn is_shared<T: Send + Sync + Debug>() {}

#[test]
fn types_go_between_threads_and_show_themselves() {
    is_shared::<Store>();
    is_shared::<Store<PowerCut<Files>>>();
    is_shared::<Engine>();
    is_shared::<Preview>();
    is_shared::<Error>();
    is_shared::<BatchBuilder>();
    is_shared::<Batch<'static>>();
    is_shared::<Report<'static>>();
    is_shared::<Text<'static>>();
    is_shared::<OpenOptions>();
}

#[test]
fn values_come_from_plain_ones() {
    let mut batch = BatchBuilder::default();
    batch.begin_present("grips", 7).unwrap();
    let elements = Vector::bytes_of(&[1.5]);
    let values = [
        5.into(),
        0.5.into(),
        "x".into(),
        Text::from("ü").into(),
        true.into(),
        Vector(&elements).into(),
        Value::default(),
    ];
    for value in values {
        batch.add_column("c", value).unwrap();
    }
    let decoded = Batch::decode(batch.body()).unwrap();
    let columns = decoded.records().next().unwrap().columns.unwrap();
    assert!(columns.map(|column| column.value).eq(values));
    assert_eq!(decoded, Batch::decode(batch.clone().body()).unwrap());
    assert!(format!("{batch:?}").contains("Integer(5)"), "{batch:?}");
}

#[test]
fn refusals_are_numbers_and_back() {
    for number in 1..=21 {
        let refusal = Refusal::try_from(number).unwrap();
        assert_eq!(u32::from(refusal), number);
    }
    assert_eq!((Refusal::try_from(0), Refusal::try_from(22)), (Err(0), Err(22)));
    let some: HashSet<Refusal> = [Refusal::Short, Refusal::Magic, Refusal::Short].into();
    assert_eq!(some.len(), 2);
    let modes: HashSet<(Mode, Area)> = [(Mode::default(), Area::Log)].into();
    assert!(modes.contains(&(Mode::ReadWrite, Area::Log)));
}

#[test]
fn errors_are_the_systems_too() {
    let error = Store::open("/nowhere/grips", Mode::ReadOnly).unwrap_err();
    let error = std::io::Error::from(error);
    assert_eq!(error.kind(), std::io::ErrorKind::NotFound);
    assert!(error.to_string().contains("/nowhere/grips"));
    assert!(error.downcast::<Error>().is_ok());
    let answered = || -> std::io::Result<Store> {
        BatchBuilder::default().add_tombstone("grips", 7)?;
        Ok(Snapshot::of(&Store::open("/nowhere/grips", Mode::ReadOnly)?)?.create("/nowhere/other")?)
    };
    assert_eq!(answered().unwrap_err().kind(), std::io::ErrorKind::NotFound);
}

#[test]
fn the_default_header_is_a_new_stores() {
    let mut engine = Engine::default();
    engine.create(1).unwrap();
    assert_eq!(engine.header(), Ok(DbHeader::default()));
    assert_eq!(engine.clone().log_file(), engine.log_file());
}
