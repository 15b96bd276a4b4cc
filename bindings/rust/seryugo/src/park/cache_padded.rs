//! Cache-line padding.

/// A value alone in its cache lines. A processor fetches two lines of 64 bytes at a time.
#[repr(align(128))]
pub(crate) struct CachePadded<T>(pub T);
