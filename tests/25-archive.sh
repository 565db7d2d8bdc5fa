#!/usr/bin/env bash
# The archive for C needs one name from outside, as include/wormstrand.h says: memset.
set -euo pipefail
cd "$(dirname "${BASH_SOURCE[0]}")/.."
. tests/library.sh

nm=nm
[ "$(uname -m)" = x86_64 ] || nm=x86_64-linux-gnu-nm
outside=$("$nm" -u "$archive" | awk '$1 == "U" { print $2 }' | sort -u)
[ "$outside" = memset ] || { echo "archive: it needs '${outside//$'\n'/ }' from outside, not memset alone" >&2; exit 1; }
echo "archive: memset alone from outside"
