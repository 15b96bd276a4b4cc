#!/bin/sh
# The build system of examples/programs/build_system, also beside make: `sh tests/programs/build_system.sh PROGRAM`, or with the
# archive of cml_c.
exec python3 "$(dirname "$0")/../../examples/programs/build_system/test_build_system.py" "$@"
