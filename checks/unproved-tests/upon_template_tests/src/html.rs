// Pages whose values are escaped.
pub mod hostile;
pub mod pages;
