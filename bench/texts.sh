# Functions of ./gate: what no proof sees.

# Runs a command, and prints what it says if it fails.
run_quietly() {
  local said
  said=$("$@" 2>&1) || {
    printf '%s\n' "$said" >&2
    return 1
  }
}

# Looks in some seconds whether the documents, docs/STATEMENT.md and the texts of the edits fit the sources of the repository in a folder,
# prints what doesn't, and fails then.
look_at_texts() {
  run_quietly python3 "$1/bench/docs.py" && run_quietly python3 "$1/bench/statement.py" && run_quietly python3 "$1/hostile/edits.py" --look
}
