//! A second implementation of the ledger of document 01 and of requests 1, 2,
//! 4, 5, 6 and 12 of document 02, written from the documents alone, with which
//! the proved library is compared.

pub mod compare;
pub mod depot;
pub mod desk;
pub mod generate;
pub mod image;
pub mod ledger;
pub mod limits;
pub mod listing;
pub mod log_check;
pub mod names;
#[cfg(feature = "proved")]
pub mod proved;
pub mod random;
pub mod raw;
pub mod records;
pub mod run;
pub mod samples;
