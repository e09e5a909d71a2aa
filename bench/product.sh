#!/usr/bin/env bash
# Times the server's product beside its peers, all on the same bytes and in turn: ISA-L's multiply and add, gf-complete, the
# classic loop with a table of 256 x 256 products, and reading alone. A peer that isn't installed is left out.
# usage: bench/product.sh [ROUNDS [ROWSxWIDTH ..]]
exec "$(dirname "$0")/beside_peers.sh" product "$@"
