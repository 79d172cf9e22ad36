# shellcheck shell=bash
# need_kit SCRIPT: ends the script that sources this if Rattle's kit is missing.
need_kit() {
  if ! command -v rt >/dev/null; then
    echo "$1: Rattle's kit is missing: rt is not on PATH (see README.md)" >&2
    exit 1
  fi
}
