#!/usr/bin/env bash
# Tries the wrong bodies that some crates keep as must-fail/NAME.md, on a copy: the prover must refuse each of them.
# The gate tries must-fail/NAME.edit alone; run this where a crate changed that keeps such pages.
#
# Usage: tools/wrong_bodies.sh CRATE..
set -euo pipefail
top=$(cd "$(dirname "${BASH_SOURCE[0]}")/.." && pwd)
[ $# -gt 0 ] || { sed -n '2,5s/^# \{0,1\}//p' "${BASH_SOURCE[0]}" >&2; exit 2; }
copy=$(mktemp -d -t wrong-bodies-XXXXXX)
trap 'rm -rf "$copy"' EXIT
tar -C "$top" -c --exclude=./.git --exclude='./crates/*/out' . | tar -C "$copy" -x
cd "$copy"
for crate in "$@"; do
  for page in "crates/$crate/must-fail/"*.md; do
    sed -n '/^\(file\|old\|new\): /p' "$page" >"${page%.md}.edit"
  done
done
rt must-fail "$@"
