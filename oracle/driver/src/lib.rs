//! The Rust driver of the AT86RF233, with the repairs of request 2026-02, over stand-ins
//! for the kernel, made to answer scripts of calls, with a generator of scripts and a
//! comparison built on it; a second implementation of the trace that calls leave; and a
//! model of the driver that goes on where the Rust may not be compared.

pub mod action;
pub mod answer;
mod area;
mod bench;
pub mod book;
mod calls;
pub mod command;
pub mod comparison;
pub mod coverage;
pub mod damage;
pub mod difference;
pub mod domain;
mod event;
pub mod generator;
pub mod line;
pub mod model;
pub mod options;
pub mod outcome;
mod panics;
mod parse;
pub mod performer;
pub mod program;
pub mod progress;
pub mod random;
pub mod run;
pub mod session;
pub mod settings;
pub mod shrink;
pub mod trace;
pub mod view;
pub mod walk;

// The driver itself, copied by the build script with the repairs of docs/2026-02.patch.
include!(concat!(env!("OUT_DIR"), "/rf233_modules.rs"));

/// The text of the driver as it was compiled.
pub const COPY: &str = include_str!(concat!(env!("OUT_DIR"), "/rf233.rs"));
