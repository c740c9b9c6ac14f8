//! Stand-in for the prefetch hint, which changes no answer.
pub fn prefetch_read_data<T>(_: *const T) {}
