#!/bin/sh
# The service of examples/programs/follow, whose journal a second machine follows: `sh tests/programs/follow.sh LIBRARY CHECK WORD..`.
exec python3 "$(dirname "$0")/../../examples/programs/follow/test_follow.py" "$@"
