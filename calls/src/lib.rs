//! What the programs that answer calls share: the text of calls, answers and dumps, the layout of the bytes of a table and of a bucket
//! by itself, and the loop over the lines.

pub mod layout;
pub mod program;
pub mod text;
