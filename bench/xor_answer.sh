#!/usr/bin/env bash
# Times a server's answer in the XOR scheme beside its peers, all on the same bytes and in turn: the plain loop that adds
# the chosen rows one after the other, and reading alone, of as many bytes as the chosen rows have.
# usage: bench/xor_answer.sh [ROUNDS [ROWSxWIDTH ..]]
exec "$(dirname "$0")/beside_peers.sh" answer "$@"
