//! An independent model of document 01 over IEEE Std 802.3ad-2000, Clause 43.
//!
//! It performs the calls of `include/myrkosti.h` over the same octets, and was written from the papers without sight of the
//! library's source, so that each can check the other: they share the type of a call (`rust/calls`), and no rule. [`counters`] and
//! [`moves`] were written after the library's definitions of them had been read, though not its code, [`asks`], [`why`] and [`apart`]
//! after a description in words. It reads the whole table into values, works on those, and writes the whole table back: plain before
//! fast.
//!
//! | File | Subject |
//! |---|---|
//! | [`wire`] | octets of frames, the information block, the state octet |
//! | [`record`] | a port's record, the table in memory and its ranges |
//! | [`receive`] | Receive machine and the functions of 43.4.9; displaced ports |
//! | [`periodic`] | Periodic Transmission machine |
//! | [`mux`] | Mux machine, independent control |
//! | [`churn`] | Churn Detection machines |
//! | [`select`] | the selection rule, Ready, steps 3 to 6 of the order of work, and what runs behind them |
//! | [`asks`] | Markers that are asked for, and their Responses |
//! | [`why`] | why a port carries or does not |
//! | [`apart`] | why two ports are in no common group |
//! | [`moves`] | moves of a table from one form into the other |
//! | [`counters`] | the counters of a port, which stand outside the table |
//! | [`calls`] | the calls, their refusals in document 01's order |
//! | [`breakage`] | deliberate errors, to see that a comparison catches them |

#![forbid(unsafe_code)]

pub mod apart;
pub mod asks;
pub mod breakage;
pub mod calls;
pub mod churn;
pub mod counters;
pub mod moves;
pub mod mux;
pub mod periodic;
pub mod receive;
pub mod record;
pub mod select;
pub mod why;
pub mod wire;

pub use crate::calls::{old_table_size, perform, report, table_size};
