#!/usr/bin/env bash
#SBATCH --job-name=passplan
#SBATCH --ntasks=1
#SBATCH --cpus-per-task=1
#SBATCH --mem=512M
# One task of a job array of Slurm: plans the shard of the task's number. slurm.sh submits it.
#
#     sbatch --array=1-COUNT tools/shards/array.sbatch ONE PROGRAM FOLDER
#
# ONE is the path of one.sh (Slurm runs a copy of this file, which does not know where it came from).
exec "$1" "$2" "$3" "$(printf 'shard-%04d' "$SLURM_ARRAY_TASK_ID")"
