//! How long a test waits for its threads.

use std::time::Duration;

/// What takes longer hangs, also on a slow machine.
pub const PATIENCE: Duration = Duration::from_secs(1_800);
