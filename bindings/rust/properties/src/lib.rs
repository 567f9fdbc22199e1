//! The properties stand in `tests`.
