// The parser: the faults, instructions and trees of texts, also under other delimiters and cut at each place; what literals
// denote; and brackets and blocks that are nested deep.
pub mod cut_texts;
pub mod delimiters;
pub mod literals;
pub mod nesting;
pub mod parsing;
pub mod trees;
