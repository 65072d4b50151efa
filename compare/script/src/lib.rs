//! Lists of calls, run on the port and on the Rust.
//!
//! A list is written down as callscript.md has it ([`call`]), or drawn from
//! a seed ([`random`]). [`run`] carries it out on a [`side::Side`], of which
//! there are two: [`port`], through the C interface, and [`rust`], the
//! published files over the stand-in's. [`desk`] asks the port alone.

pub mod call;
pub mod desk;
pub mod edit;
pub mod hash;
pub mod port;
pub mod random;
pub mod run;
pub mod rust;
pub mod side;
pub mod spec;
pub mod written;
