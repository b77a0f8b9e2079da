//! What is left of a store after crashes, damage, failed calls and on a full disk, and what its
//! calls answer beside the ordered map of the standard library.
#![tactic(auto)]

#[cfg(test)]
mod calls;
#[cfg(test)]
mod crashes;
#[cfg(test)]
mod damage;
#[cfg(test)]
mod kinds;
#[cfg(test)]
mod room;
