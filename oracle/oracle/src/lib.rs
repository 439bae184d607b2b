//! The Rust at its commit as an oracle: the published files, compiled as they
//! are, and a harness around them that answers streams of histories.
//! FORMAT.md says what goes in and what comes out.

mod algebra {
    include!(concat!(env!("OUT_DIR"), "/algebra.rs"));
}
mod answer;
#[allow(dead_code)]
mod ast;
mod book;
#[allow(dead_code)]
mod error;
mod grammar_util;
pub mod record;
#[allow(dead_code)]
mod scopes;
mod sheet;
pub mod stream;
pub mod timing;

use algebra::structure::harness::parking::Slot;
use algebra::structure::harness::Oracle;
