#!/bin/sh
# The fake program once more, with orders of its own: stands in for `record_calls` beside the others.
export FAKE_SAYS="$FAKE_CALLS_SAYS" FAKE_HEARD="$FAKE_CALLS_HEARD" FAKE_STATUS="${FAKE_CALLS_STATUS:-0}"
exec "$(dirname "$0")/fake.sh" "$@"
