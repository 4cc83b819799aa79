# A function of ./tt and ./gate: how many proofs run at a time.

# What rt ci reckons for a proof of the crates here at most, and what a proof of them takes at most, in KiB.
RECKONED=8000000
ENOUGH=5000000

# Lets rt ci prove on each processor, if there is memory for it. By itself rt ci begins a proof only if what it reckons for it is free.
prove_on_each_processor() {
  local processors free
  [ -z "${RT_JOBS:-}" ] && [ "$(cat /sys/fs/cgroup/memory.max 2>/dev/null || echo max)" = max ] || return 0
  processors=$(nproc)
  free=$(awk '/^MemAvailable:/ { print $2 }' /proc/meminfo)
  if [ "$free" -lt $((processors * RECKONED)) ] && [ "$free" -ge $((processors * ENOUGH)) ]; then
    export RT_JOBS="$processors"
  fi
}
