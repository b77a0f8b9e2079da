//! Tests of cursors: worked walks and the nearest pairs.
mod keys;
mod nearest;
mod said;
mod walks;
