#!/usr/bin/env bash
# Makes one run, or looks at what it made. It is called in the folder of all runs, where NAME has instance.ctt and start.sol.
#
#   one.sh improve NAME SEED STEPS    writes NAME/SEED.sol
#   one.sh parts NAME SEED NODES      writes the proofs of a lower bound to NAME/SEED.proofs
#   one.sh cost NAME SEED             prints the hard count, the cost and the seed, as tt validate counts them
#   one.sh bound NAME SEED            prints for each proof its name, its bound and the seed, as tt sum checks it
#
# TT is the program; if it isn't set, it is ./tt of this repository. What a run printed, its status, its host and its seconds are in
# NAME/SEED.improve.log or NAME/SEED.parts.log, and what a failed run printed is on standard error too. The status is 0 if it was done, also if
# the timetable breaks a hard rule, 127 if there is no program, and otherwise that of the program.
set -eu
TT=${TT:-$(cd "$(dirname "${BASH_SOURCE[0]}")/../.." && pwd)/tt}
if [ $# -lt 3 ]; then echo "one.sh: give improve, parts, cost or bound, then NAME and SEED" >&2; exit 2; fi
kind=$1 name=$2 seed=$3
case $kind in
  improve) if [ $# -lt 4 ]; then echo "one.sh: give STEPS" >&2; exit 2; fi ;;
  parts) if [ $# -lt 4 ]; then echo "one.sh: give NODES" >&2; exit 2; fi ;;
  cost | bound) ;;
  *) echo "one.sh: what is $kind?" >&2; exit 2 ;;
esac
if [ ! -d "$name" ]; then echo "one.sh: there is no folder $name in $PWD on $(uname -n)" >&2; exit 2; fi
if ! command -v "$TT" >/dev/null; then echo "one.sh: there is no program $TT on $(uname -n)" >&2; exit 127; fi

# Runs the program, whose status 1 says that a hard rule is broken.
run() {
  local status=0
  "$TT" "$@" || status=$?
  if [ "$status" -ne 1 ]; then return "$status"; fi
}

# Makes the run and its log.
make() {
  local status=0 log="$name/$seed.$kind.log"
  "$@" >"$log" 2>&1 || status=$?
  if [ "$status" -ne 0 ]; then echo "one.sh: $kind $name with seed $seed on $(uname -n): $(cat "$log")" >&2; fi
  echo "status $status on $(uname -n) after $SECONDS seconds" >>"$log"
  return "$status"
}

# Prints the bound of each proof; a proof that is refused doesn't keep the others.
bounds() {
  local proof sum status=0
  if [ ! -d "$name/$seed.proofs" ]; then echo "one.sh: there is no folder $name/$seed.proofs" >&2; return 2; fi
  for proof in "$name/$seed.proofs"/*.proof; do
    if [ ! -e "$proof" ]; then continue; fi
    sum=$("$TT" sum "$name/instance.ctt" --quiet "$proof") || { status=$?; echo "one.sh: $proof is refused" >&2; continue; }
    echo "$(basename "$proof") ${sum#bound } $seed"
  done
  return "$status"
}

case $kind in
  improve) make run improve "$name/instance.ctt" "$name/start.sol" "$name/$seed.sol" --seed "$seed" --steps "$4" --quiet ;;
  parts) make "$TT" parts "$name/instance.ctt" "$name/$seed.proofs" --seed "$seed" --nodes "$4" --quiet ;;
  cost)
    counts=$(run validate "$name/instance.ctt" "$name/$seed.sol")
    awk -v seed="$seed" '$1 == "hard" { hard = $2 } $1 == "cost" { print hard, $2, seed }' <<<"$counts"
    ;;
  bound) bounds ;;
esac
