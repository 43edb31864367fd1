//! Divides one serving thread among clients by Constant Bandwidth Servers under earliest deadline first. A client that asks
//! for too much cannot take another's share. The scheduling is proved; this crate is a safe door to it.
//!
//! The library decides, the program does. A [`Client`] sends jobs: a token, which is a value of any type, and how many units the
//! job has. [`House::run_until_closed`] calls the program with each unit, and [`realtime::Realtime`] does so in real time: it
//! measures the units, and charges a server what its units took beyond a tick, so that it takes nobody's share. A [`Job`] is a
//! token that is a closure, with its result by a handle.
//!
//! ```
//! use cbs::{Mode, Plan};
//! use std::thread;
//!
//! let mut plan = Plan::new();
//! plan.admit(2, 5, Mode::Soft)?; // server 0: 2 ticks in every 5
//! plan.admit(3, 5, Mode::Soft)?;
//! let (mut house, clients) = plan.open(16, 16)?;
//!
//! // Each client sends one job of three units from a thread of its own, and is dropped then, which ends it.
//! let senders: Vec<_> = clients
//!     .into_iter()
//!     .zip(["wash", "dry"])
//!     .map(|(mut client, token)| thread::spawn(move || client.send(token, 3)))
//!     .collect();
//!
//! let mut done = Vec::new();
//! house.run_until_closed(|unit| {
//!     // Here the program does one unit of the job with this token, and with the last unit the token is the program's.
//!     done.extend(unit.into_token());
//! })?;
//! done.sort();
//! assert_eq!(done, ["dry", "wash"]);
//! for sender in senders {
//!     sender.join().unwrap()?;
//! }
//! # Ok::<(), Box<dyn std::error::Error>>(())
//! ```
//!
//! A loop of one's own in real time asks [`House::next`] what it does next, or looks at the house
//! between two [steps](realtime::Realtime::step). Without a clock it takes turns: [`House::turn`],
//! or [`House::poll`] and [`House::run`], return which unit is next, and never wait.
//!
//! A client that is dropped has ended, and a house that was dropped is an error of its clients' sends, so no side waits for one
//! that is gone. Memory is taken by [`Plan::open`], and when the house takes a job.
//!
//! The library is found at build time: set `CBS_LIB_DIR` to the folder of `libcbs.a` if it is not where `build.rs` looks.

#![deny(missing_docs, missing_debug_implementations, unsafe_code)]

mod background;
mod bell;
mod blocks;
mod client;
mod doing;
mod error;
#[allow(unsafe_code)]
mod ffi;
mod house;
mod job;
pub mod live;
mod pacer;
mod plan;
pub mod realtime;
pub mod record;
mod tokens;
mod unit;

pub use bell::{Bell, Stopper};
pub use client::Client;
pub use error::{HouseError, OpenError, PlanError, Refused, RunError, SendError, TapeError};
pub use house::{Charges, Ended, House, Poll, Ran, Turn, View};
pub use job::{Job, JobError, JobHandle, NotJoined, Payload};
pub use plan::{Mode, Plan};
pub use unit::{Token, Unfinished, Unit};

/// Has the program of the README tried with those of these pages.
#[cfg(doctest)]
#[doc = include_str!("../README.md")]
struct Readme;
