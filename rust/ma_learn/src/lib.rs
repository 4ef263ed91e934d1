//! Learning the predictor tree of a digit sheet: jobs read from the job stream and learnt by the proved
//! library, trees as text, as Graphviz, as the stream's answer and as JPEG XL's symbols, from which they are read
//! back; and jobs made from PGM pictures.

pub mod command_line;
pub mod dot;
pub mod fault;
pub mod input;
pub mod job;
pub mod names;
pub mod pgm;
pub mod picture;
pub mod rows;
pub mod symbols;
pub mod text;
pub mod tree;
pub mod weighted;
pub mod words;
