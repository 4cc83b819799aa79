#!/usr/bin/env bash
# Checks the proofs of a sum, each by itself and side by side, and then the sum.
#
#   check.sh INSTANCE [--solution SOLUTION] PROOF..
#
# Prints a line for each proof, with its bound or why it is refused, and last what tt sum says of all. Only that line counts: proofs that
# are right one by one may claim the same part of the cost, and then they don't add up. Without GNU parallel there is only that line. The
# status is that of tt sum, or 1 if the sum was accepted and a proof by itself was not.
set -eu
TT=${TT:-$(cd "$(dirname "${BASH_SOURCE[0]}")/../.." && pwd)/tt}
export TT
if [ $# -eq 0 ]; then echo "check.sh: give an INSTANCE" >&2; exit 2; fi
instance=$1
shift
solution=()
if [ "${1:-}" = --solution ]; then
  if [ $# -lt 2 ]; then echo "check.sh: give a SOLUTION after --solution" >&2; exit 2; fi
  solution=(--solution "$2")
  shift 2
fi

# Checks each proof by itself. GNU parallel ends with the number of the checks that failed, at most 101, or with a larger one if it failed itself.
check_each() {
  local failed=0
  parallel --keep-order --tag '"$TT" sum --quiet' "$(printf %q "$instance")" '{}' '2>&1' ::: "$@" || failed=$?
  if [ "$failed" -gt 101 ]; then
    echo "check.sh: GNU parallel failed with status $failed; only the sum is checked" >&2
  elif [ "$failed" -gt 0 ]; then
    echo "check.sh: not every proof is right" >&2
    return 1
  fi
}

wrong=0
# Another program of this name has no such option.
if [ "$(parallel --version 2>/dev/null | head -c 12)" != 'GNU parallel' ]; then
  echo "check.sh: there is no GNU parallel (on Debian: apt-get install parallel); only the sum is checked" >&2
elif [ $# -gt 0 ]; then
  check_each "$@" || wrong=1
fi
status=0
"$TT" sum "$instance" "${solution[@]}" "$@" || status=$?
if [ "$status" -eq 0 ]; then status=$wrong; fi
exit "$status"
