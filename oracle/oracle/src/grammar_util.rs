//! Stands in for source locations. There is none here.

pub type Location = crate::ast::Never;
