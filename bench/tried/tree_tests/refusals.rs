//! Tests of the index, of its histories and of its runs in which an allocation fails.
//! `bench/refusals` makes each fail in turn.
mod histories;
mod keys;
mod rebuilds;
mod runs;
mod shapes;
mod texts;
mod writes;
