#!/bin/sh
# A sweep as a Slurm job array: runs one line of the jobs that `tools/sweep --list` wrote (its path is the one word).
#SBATCH --job-name=sweep
#SBATCH --ntasks=1
#SBATCH --cpus-per-task=1
job=$(sed -n "$((${SLURM_ARRAY_TASK_ID:?runs in a job array} + 1))p" "${1:?the path of jobs.sh}") || exit 1
[ -n "$job" ] || { echo "sweep.sbatch: $1 has no line for task $SLURM_ARRAY_TASK_ID" >&2; exit 1; }
eval "$job"
