//! Cuts: random histories of the port through its C interface, each write of the next call cut
//! after every byte of interest, a clean opening, and what it finds compared with the model
//! of document 01.
pub mod batch;
pub mod call;
pub mod compare;
pub mod cutting;
pub mod draw;
pub mod expected;
pub mod files;
pub mod judge;
pub mod kill;
pub mod model;
pub mod places;
pub mod port;
pub mod run;
pub mod tally;
pub mod world;
pub mod writes;
pub mod wrong;
