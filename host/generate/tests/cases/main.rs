//! Thousands of random inputs, and what must hold of every one of them.

mod audit;
mod catalog;
mod common;
mod doublewrite;
mod honest;
mod honesty;
mod intake;
mod readers;
mod refusals;
mod seeds;
