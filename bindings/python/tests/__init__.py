"""The tests of the package."""

# No test takes so many seconds, also on a slow machine. A call that isn't woken fails then.
LIMIT = 1800
