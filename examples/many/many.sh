#!/usr/bin/env bash
# Makes runs of many seeds and instances side by side, with GNU parallel, and keeps the best result of each instance.
#
#   many.sh improve [--seeds N] [--steps N] [--jobs N] [--hosts HOST,..] OUTDIR INSTANCE..
#   many.sh parts [--seeds N] [--nodes N] [--jobs N] [--hosts HOST,..] OUTDIR INSTANCE..
#
# The seeds are 1 to N, where N is 16 if it isn't given. An instance like02.ctt needs a solution like02.sol next to it, from which improve
# begins. OUTDIR/like02.sol is the timetable with the least cost by tt validate. OUTDIR/like02.proofs has the proof with the greatest bound of
# each kind, groups.proof, prices.proof and rooms.proof, if these add up by tt sum, and otherwise those of the best seed. A line for each instance says which seeds made them. The log of a run is
# OUTDIR/like02/SEED.improve.log or SEED.parts.log, and what an earlier call left gets a name that ends in .old.
#
# With --hosts the runs are made on these hosts over ssh, and on no others; each needs rsync and this repository, built, at the same path.
# Their inputs, results and logs are copied, and removed there. PARALLEL_SSH is the command for ssh, such as 'ssh -F FILE'.
#
#   many.sh prepare improve|parts OUTDIR INSTANCE..              only copies the inputs to OUTDIR, for slurm.sh
#   many.sh keep improve|parts [--seeds N] OUTDIR INSTANCE..     only compares what runs have left in OUTDIR, and with N looks for all of them
#
# The status is 1 if a run failed, or left nothing, though what the others left is kept, and 2 if nothing was begun.
set -euo pipefail
here=$(cd "$(dirname "${BASH_SOURCE[0]}")" && pwd)
TT=$(realpath "${TT:-$here/../../tt}")
export TT

# Quotes a word for every shell, since GNU parallel gives its command to one.
quote() {
  local mark="'" escaped="'\\''"
  printf "'%s'" "${1//$mark/$escaped}"
}
one=$(quote "$here/one.sh")

stage=all
case ${1:-} in prepare | keep) stage=$1; shift ;; esac
kind=${1:-}
case $kind in improve | parts) shift ;; *) echo "many.sh: give improve or parts" >&2; exit 2 ;; esac
seeds=16 amount=10000 jobs=100% hosts= all_known=0 made=sol
if [ "$kind" = parts ]; then amount=100000 made=proofs; fi
while [ $# -gt 1 ]; do
  case $1 in
    --seeds) seeds=$2 all_known=1 ;;
    --steps | --nodes) amount=$2 ;;
    --jobs) jobs=$2 ;;
    --hosts) hosts=$2 ;;
    -*) echo "many.sh: what is $1?" >&2; exit 2 ;;
    *) break ;;
  esac
  shift 2
done
if [ $# -lt 2 ]; then echo "many.sh: give OUTDIR and at least one INSTANCE" >&2; exit 2; fi
case $seeds in '' | *[!0-9]* | 0*) echo "many.sh: --seeds wants a number from 1, and not $seeds" >&2; exit 2 ;; esac
out=$1
shift
if [ "$stage" = all ]; then all_known=1; fi

# Another program of this name has no such option.
if [ "$stage" != prepare ] && [ "$(parallel --version 2>/dev/null | head -c 12)" != 'GNU parallel' ]; then
  echo "many.sh: there is no GNU parallel, which makes the runs (on Debian: apt-get install parallel)" >&2
  exit 2
fi

# Ends where a file that is to be copied isn't there, where two instances would have one folder, or where a result would replace an input.
check_inputs() {
  local instance name
  local -A seen=()
  for instance in "$@"; do
    name=$(basename "$instance" .ctt)
    if [ -n "${seen[$name]:-}" ]; then echo "many.sh: two instances are named $name" >&2; exit 2; fi
    seen[$name]=1
    if [ "$kind" = improve ] && [ "$out/$name.sol" -ef "${instance%.ctt}.sol" ]; then
      echo "many.sh: give another OUTDIR: the runs of $instance begin at $out/$name.sol, which would be replaced" >&2
      exit 2
    fi
    if [ "$stage" = keep ]; then
      if [ ! -d "$out/$name" ]; then echo "many.sh: there are no runs of $instance: no folder $out/$name" >&2; exit 2; fi
      continue
    fi
    if [ ! -f "$instance" ]; then echo "many.sh: there is no instance $instance" >&2; exit 2; fi
    if [ "$kind" = improve ] && [ ! -f "${instance%.ctt}.sol" ]; then
      echo "many.sh: there is no solution ${instance%.ctt}.sol, from which the runs of $instance begin" >&2
      exit 2
    fi
  done
}

# Ends where the program isn't there, or a host can't be used. The first call builds the program if it isn't built, so that the runs needn't.
check_programs() {
  local look
  if ! "$TT" --help >/dev/null; then echo "many.sh: the program $TT doesn't run" >&2; exit 2; fi
  if [ -z "$hosts" ] || [ "$stage" != all ]; then return; fi
  case ",$hosts," in *,:,* | */:,*) echo "many.sh: name this machine among the hosts, in place of : (its files are copied too)" >&2; exit 2 ;; esac
  look="for file in $one $(quote "$TT"); do if [ ! -x \"\$file\" ]; then echo \"there is no program \$file\"; exit 1; fi; done; $(quote "$TT") --help >/dev/null"
  look="$look && rsync --version >/dev/null"
  if ! parallel --nonall --tag --sshlogin "$hosts" "$look" >&2; then echo "many.sh: nothing was begun, since a host can't be used" >&2; exit 2; fi
}

# Gives a name that ends in .old to what an earlier call left, so that nothing of it is taken for a result of this one.
put_aside() {
  local file
  for file in "$@"; do
    if [ -e "$file" ]; then rm -rf "$file.old" && mv "$file" "$file.old"; fi
  done
}

# Copies an instance and its solution to a folder of its own, so that a run needs no other file.
prepare() {
  local name seed log
  name=$(basename "$1" .ctt)
  mkdir -p "$out/$name"
  put_aside "$out/$name.$made"
  for seed in $(seeds_of "$out/$name"); do put_aside "$out/$name/$seed.$made"; done
  for log in "$out/$name"/*."$kind.log"; do put_aside "$log"; done
  cp "$1" "$out/$name/instance.ctt"
  if [ "$kind" = improve ]; then cp "${1%.ctt}.sol" "$out/$name/start.sol"; fi
}

# Makes the runs: the first seed of all instances, then the second.
run_all() {
  local over=()
  if [ -n "$hosts" ]; then
    over=(--sshlogin "$hosts" --workdir ... --transferfile '{2}/instance.ctt' --return "{2}/{1}.$made" --return "{2}/{1}.$kind.log" --cleanup --env TT)
    if [ "$kind" = improve ]; then over+=(--transferfile '{2}/start.sol'); fi
  fi
  parallel --jobs "$jobs" --joblog "$kind.log" "${over[@]}" "$one" "$kind" '{2}' '{1}' "$amount" ::: $(seq "$seeds") ::: "$@"
}

# Lists the seeds whose runs left a result of an instance.
seeds_of() {
  ls "$1" | sed -n "s/^\([0-9]*\)\.$made\$/\1/p" | sort -n
}

# Looks at the results of all seeds by one.sh.
look_at() {
  seeds_of "$2" | parallel --jobs "$jobs" "$one" "$1" "$(quote "$2")" '{}'
}

# Says which seeds left nothing, if it is known which there were.
is_any_missing() {
  local missing
  if [ "$all_known" -eq 0 ]; then return 1; fi
  missing=$(comm -13 <(seeds_of "$1" | sort) <(seq "$seeds" | sort) | sort -n | tr '\n' ' ')
  if [ -z "$missing" ]; then return 1; fi
  echo "$1: these seeds left nothing: ${missing% }" >&2
}

# Keeps the timetable with the least hard count and cost, and of equal ones that of the first seed.
keep_timetable() {
  local hard cost seed status=0
  if [ -z "$(seeds_of "$1")" ]; then echo "$1: no run left a timetable" >&2; return 1; fi
  if is_any_missing "$1"; then status=1; fi
  look_at cost "$1" | sort -n -k1,1 -k2,2 -k3,3 >"$1/costs" || { status=1; echo "$1: some timetables could not be counted" >&2; }
  if ! read -r hard cost seed <"$1/costs"; then return 1; fi
  cp "$1/$seed.sol" "$1.sol" || return 1
  echo "$1: hard $hard cost $cost, made by seed $seed, the best of $(wc -l <"$1/costs")"
  return "$status"
}

# Sorts proofs by their names, and those of a name by their bounds, the greatest first; the bound none is greater than all others.
sort_bounds() {
  awk '{ print ($2 == "none" ? 1e15 : $2), $0 }' | sort -k2,2 -k1,1gr -k4,4n | cut -d ' ' -f 2-
}

# Adds up the proofs of a folder.
add_up() {
  find "$2" -name '*.proof' -print0 | sort -z | xargs -0 "$TT" sum "$1/instance.ctt" --quiet
}

# Prints the first seed whose proofs have the greatest sum of bounds.
best_seed() {
  awk '{ sum[$3] += $2 == "none" ? 1e15 : $2 }
    END { for (it in sum) if (best == "" || sum[it] > sum[best] || sum[it] == sum[best] && it + 0 < best + 0) best = it; print best }' "$1/bounds"
}

# Keeps of each kind of proof the one with the greatest bound, and of equal ones that of the first seed. Groups and proofs about rooms claim
# different parts of the cost, so they add up, also if two seeds made them; groups with prices may claim all of it. If the proofs don't add up,
# those of the seed with the greatest sum are kept.
keep_proofs() {
  local proof bound seed sum said= status=0
  if [ -z "$(seeds_of "$1")" ]; then echo "$1: no run left proofs" >&2; return 1; fi
  if is_any_missing "$1"; then status=1; fi
  look_at bound "$1" | sort_bounds >"$1/bounds" || { status=1; echo "$1: some proofs were refused" >&2; }
  rm -rf "$1.proofs"
  mkdir "$1.proofs" || return 1
  while read -r proof bound seed; do
    if [ -e "$1.proofs/$proof" ]; then continue; fi
    cp "$1/$seed.proofs/$proof" "$1.proofs/" || return 1
    said="$said${said:+,} $proof $bound by seed $seed"
  done <"$1/bounds"
  sum=$(add_up "$1" "$1.proofs" 2>/dev/null) || {
    seed=$(best_seed "$1")
    rm -f "$1.proofs"/*
    cp "$1/$seed.proofs"/*.proof "$1.proofs/" || return 1
    said=" all by seed $seed"
    sum=$(add_up "$1" "$1.proofs") || { echo "$1: the proofs in $1.proofs don't add up" >&2; return 1; }
  }
  echo "$1: $sum${said:+:$said}, the best of $(seeds_of "$1" | wc -l)"
  return "$status"
}

check_inputs "$@"
check_programs
names=() status=0
for instance in "$@"; do
  if [ "$stage" != keep ]; then prepare "$instance"; fi
  names+=("$(basename "$instance" .ctt)")
done
cd "$out"
if [ "$stage" = all ]; then
  rm -f "$kind.log"
  run_all "${names[@]}" || status=1
  if [ "$status" -ne 0 ] && [ -e "$kind.log" ]; then
    echo "many.sh: some runs failed; $out/$kind.log has the exit status of each, and SEED.$kind.log in the folder of an instance what it printed" >&2
  fi
fi
if [ "$stage" != prepare ]; then
  for name in "${names[@]}"; do
    if [ "$kind" = improve ]; then keep_timetable "$name" || status=1; else keep_proofs "$name" || status=1; fi
  done
fi
exit "$status"
