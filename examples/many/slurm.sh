#!/usr/bin/env bash
# Makes the runs of many.sh as an array of SLURM tasks, one for each seed. Prepare a folder that all nodes share, and begin in it:
#
#   many.sh prepare improve runs like02.ctt like05.ctt
#   cd runs
#   HERE=/path/to/examples/many sbatch --wait --array=1-16 /path/to/examples/many/slurm.sh improve 10000 like02 like05
#
# and when all tasks have ended, in the folder above: many.sh keep improve --seeds 16 runs like02.ctt like05.ctt
# HERE is the folder of one.sh on the nodes, which SLURM doesn't know, since it runs a copy of this script; the variables HERE and TT reach a
# task unless sbatch is told otherwise by --export. A task makes all its runs, and its status is 1 if one of them failed, or 2 if none was begun.
# With --wait the status of sbatch is the greatest of its tasks. The log of a task is task-SEED.log in the folder of the runs, that of a run
# is NAME/SEED.improve.log. To make the runs of single seeds again, name them: --array=3,7
#SBATCH --job-name=tt
#SBATCH --ntasks=1
#SBATCH --cpus-per-task=1
#SBATCH --mem=1G
#SBATCH --time=01:00:00
#SBATCH --output=task-%a.log
set -eu
if [ $# -lt 3 ]; then echo "slurm.sh: give improve or parts, the steps or nodes, and at least one NAME" >&2; exit 2; fi
one="${HERE:?set HERE to the folder of one.sh}/one.sh"
seed="${SLURM_ARRAY_TASK_ID:?is set in a task of an array: begin it by sbatch --array}"
kind=$1 amount=$2
shift 2
if [ ! -x "$one" ]; then echo "slurm.sh: there is no $one on $(uname -n), so nothing was begun" >&2; exit 2; fi
status=0
for name in "$@"; do
  ended=0
  "$one" "$kind" "$name" "$seed" "$amount" || ended=$?
  if [ "$ended" -eq 0 ]; then
    echo "$name: $(tr '\n' ' ' <"$name/$seed.$kind.log")"
  else
    echo "slurm.sh: the run of $name with seed $seed failed with status $ended" >&2
    status=1
  fi
done
exit "$status"
