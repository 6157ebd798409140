//! A plain port of the index: the lent memory, the five calls and the thirty steps, with the C face of the compiled
//! library.
#![deny(unsafe_code)]

pub mod c_face;
pub mod calls;
pub mod chains;
pub mod damage;
pub mod locks;
pub mod memory;
pub mod mixing;
pub mod reply;
mod steps;
pub mod take_up;
pub mod waiting;
