// Templates by their paths.
pub mod paths;
pub mod renders;
