# How long the tests wait for what they run. A limit guards against a hang, and no more: each is at least ten times what the command
# or step takes alone on two processors, also where nothing is proved and each step is checked. A slow machine is no failure.

# The most seconds of a command.
longest=${SERYUGO_TEST_SECONDS:-1800}

# The most seconds of a step of tests/quick.sh or tests/all.sh, which are less than the gate's 180 minutes. One that hangs fails by
# its name then, and shows how far it was.
longest_step=${longest_step:-9000}

# bounded COMMAND..: runs the command, and stops it if it hangs. Its status is 124 then.
bounded() { timeout "$longest" "$@"; }
