pub mod db;
pub mod pager;
