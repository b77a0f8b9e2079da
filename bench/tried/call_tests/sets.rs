//! Sets of several sizes, and two sets side by side.
mod calls;
mod collects;
mod relations;
mod small;
mod two_sets;
