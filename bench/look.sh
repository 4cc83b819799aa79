# Functions of `./tt --look`: the program runs before it is proved, by `rt try`, in commands that only read files and print.
#
# What rt try of the kit 13f does, as it was tried:
#
#   - It compiles the program with all crates below it anew each time, and keeps nothing: 3.3 minutes on one processor, in the
#     first call and in the second. Half of that goes to a second process of rt try, which looks for names that a check would refuse.
#   - Then `validate`, `check`, `bound`, `sum`, `inspect`, `report`, `--help` and `--version` answer in seconds.
#   - The program runs in a folder of its own with no environment. It reads files by absolute paths, those of --data NAME=FILE as NAME, and
#     standard input as `-`, which rt try takes up to 64 MiB, and up to a silence of two seconds.
#   - Files come out by absolute paths, though rt says that it keeps none: those of `solve` and `best` on Mini, and of `improve` with 100 steps.
#     But searches take too long: `solve` on like01, 1.4 seconds of the built program, didn't end in two minutes. So what writes is left out.
#   - A run that doesn't end in time, 60 seconds if --seconds doesn't say more, ends in the lines `interpreter: no-answer: a call of a function of
#     an extern block`, `checked: no-answer: the program did not end within the time limit` and `run=no-answer`. The first is there since the
#     interpreter can't run a program that reads arguments, and is shown only if the compiled program gave no answer either.
#   - More than 1 MiB of output is no answer either, as rt's own help says.

# The most of standard input that rt try passes on.
MOST_GIVEN=67108864
# How long a run may take, once the program is compiled. rt try's own limit is 60.
SECONDS_TO_RUN=600

# Says what --look does with a command: runs it, or why not.
look_is_offered() {
  case ${1-} in
    validate | check | bound | sum | inspect | report | --help | -h | --version | -V) return 0 ;;
    solve | improve | parts | best | page | upgrade)
      echo "tt: --look leaves out $1, which writes files: only the proved program does that, and ./tt build makes it" >&2
      ;;
    *)
      echo 'tt: --look takes one of validate, check, bound, sum, inspect and report with its words, or --help or --version' >&2
      ;;
  esac
  return 1
}

# Puts the words of a command into WORDS, with the caller's paths made absolute, since rt try runs the program in a folder of its own, and
# sets READS_INPUT if one of them is standard input.
words_for_look() {
  local word place=command
  WORDS=() READS_INPUT=no
  for word; do
    case $place,$word in
      command,* | value,*) place=any ;;
      any,--by | any,--ics | any,--first-day | any,--times | any,--minutes) place=value ;;
      any,--) place=path ;;
      any,--solution=*)
        word=${word#--solution=}
        make_absolute
        word="--solution=$word"
        ;;
      any,-?*) ;;
      *) make_absolute ;;
    esac
    WORDS+=("$word")
  done
}

# Makes the path in `word` absolute.
make_absolute() {
  case $word in
    -) READS_INPUT=yes ;;
    '' | /*) ;;
    *) word="$PWD/$word" ;;
  esac
}

# Runs a command by rt try in the folder of the crate, and passes on what the program printed and its status. rt try ends with a line that
# says whether the program ended; where it didn't, all that rt try said is shown.
look() {
  local crate=$1 status=0 room given=/dev/null said last
  shift
  words_for_look "$@"
  room=$(mktemp -d)
  trap "rm -rf $(printf %q "$room")" EXIT
  said="$room/said"
  if [ "$READS_INPUT" = yes ]; then
    # rt try takes no more of standard input after two silent seconds, so all of it is read before.
    given="$room/given"
    head -c $((MOST_GIVEN + 1)) >"$given"
    if [ "$(stat -c %s "$given")" -gt "$MOST_GIVEN" ]; then
      echo "tt: --look passes on no more than $MOST_GIVEN bytes of standard input: name a file in its place" >&2
      return 2
    fi
  fi
  (cd "$crate" && exec rt try --seconds "$SECONDS_TO_RUN" -- "${WORDS[@]}" <"$given" 2>"$said") || status=$?
  last=$(tail -n 1 "$said")
  case $last in
    'run=ended status='*)
      sed '/^\(checked\|interpreter\|races\): /d; $d' "$said" >&2
      return "$status"
      ;;
  esac
  cat "$said" >&2
  echo 'tt: rt try gave no answer: it takes no more than 1 MiB of output, and ends a run after ten minutes; ./tt build makes the proved program, which has no such limit' >&2
  return 2
}
