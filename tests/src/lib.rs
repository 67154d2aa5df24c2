//! An independent model of the net, its images and texts, picks, register,
//! listings, seasons and station names, written from documents 01 and 02 alone.
//! Other programs are compared with it.

pub mod bits;
pub mod by_hand;
pub mod by_origin;
pub mod digest;
pub mod dump;
pub mod edges;
pub mod examples;
pub mod faulty;
pub mod generate;
pub mod image;
pub mod listing;
pub mod matching;
pub mod names;
pub mod net;
pub mod notation;
pub mod poll;
pub mod program;
pub mod random;
pub mod register;
pub mod replay;
pub mod season;
pub mod sets;
pub mod sound;
pub mod stack;
pub mod starred;
pub mod step;
pub mod stored;
