//! An independent model of the rack controller, of the cell resistance and of the lead adviser, used
//! to check the real ones from outside. It is written from the papers alone and shares no code with them.

pub mod cases;
pub mod compare;
pub mod counts;
pub mod direct;
pub mod documents;
pub mod faults;
pub mod foldback;
pub mod generate;
pub mod leads;
pub mod line;
pub mod live;
pub mod messages;
pub mod outside;
pub mod program;
pub mod rack;
pub mod resistance;
pub mod rounding;
pub mod script;
pub mod share;
pub mod shared_object;
pub mod supply;
pub mod system;
pub mod table;
pub mod trial;
pub mod trials;
