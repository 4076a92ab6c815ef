//! The desk in ordinary Rust, unproved: what the proved desk is compared with, log by log.

pub mod count;
pub mod damage;
pub mod desk;
pub mod generate;
mod kin;
pub mod line;
pub mod log;
pub mod pager;
mod ready;
pub mod rng;
pub mod sleep;
pub mod waits;
