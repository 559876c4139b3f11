//! Stand-in for a file that is not published. Nothing that is compared uses it.
