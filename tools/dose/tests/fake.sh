#!/bin/sh
# Stands in for a proved program, or for the emulator that runs it: keeps what it hears, and the words it was called
# with if asked to; says what it was told to; ends with the status it was given.
cat >"$FAKE_HEARD"
[ -z "${FAKE_WORDS:-}" ] || printf '%s\n' "$@" "QEMU_STRACE ${QEMU_STRACE:-not set}" >"$FAKE_WORDS"
cat "$FAKE_SAYS"
exit "${FAKE_STATUS:-0}"
