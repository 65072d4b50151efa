//! Shim of the source's `table.rs`: the value of a batch's column, no more.

#[derive(Debug, Clone, PartialEq)]
pub enum Value {
    Integer(i64),
    Text(String),
    Real(f64),
    Bool(bool),
    Vector(Vec<f32>),
    Null,
}
