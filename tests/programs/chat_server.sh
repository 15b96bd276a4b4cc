#!/bin/sh
# The chat server of examples/programs/chat_server, tried by clients: `sh tests/programs/chat_server.sh CHAT_SERVER [CHECK WORD..]`.
exec python3 "$(dirname "$0")/../../examples/programs/chat_server/test_chat_server.py" "$@"
