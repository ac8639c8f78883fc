#!/usr/bin/env bash
# Prints the digest of a base folder whose sources are in the one layout, as a log's header names it: SHA-256, by sha256sum, of each
# Java file in the order of the paths by bytes, as its path below the folder, LF, its length in decimal, LF, its bytes.
# Usage: examples/digest.sh BASE
set -euo pipefail
cd "$1"
find . -type f -name '*.java' -printf '%P\n' | LC_ALL=C sort | while IFS= read -r path; do
  printf '%s\n%d\n' "$path" "$(stat -c %s "$path")"
  cat "$path"
done | sha256sum | cut -d ' ' -f 1
