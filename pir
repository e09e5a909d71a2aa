#!/usr/bin/env bash
# Runs `pir` with the words given, and builds it first where that is necessary (tools/start).
exec "$(dirname "$(readlink -f "${BASH_SOURCE[0]}")")/tools/start" pir "$@"
