//! Stand-in for a file that is not published: its parent names this type. Nothing that is compared uses it.

pub struct AstLoad;
