#!/bin/sh
# The fake program once more, with orders of its own: stands in for `counts` beside the one for `answers`.
export FAKE_SAYS="$FAKE_COUNTS_SAYS" FAKE_HEARD="$FAKE_COUNTS_HEARD" FAKE_STATUS="${FAKE_COUNTS_STATUS:-0}"
exec "$(dirname "$0")/fake.sh" "$@"
