#!/usr/bin/env bash
# Plans all shards of a folder that cut.py made, as a job array of Slurm (Debian: apt-get install slurm-wlm).
#
#     tools/shards/slurm.sh PROGRAM FOLDER [OPTION OF sbatch]..
#
# The nodes see PROGRAM, FOLDER and this repository under the same names. Shards that have a status of 0 or 1 are left out, so that
# a second call runs what is missing or failed. Each task's messages go to FOLDER/task-NUMBER.log. It ends when the array is
# submitted; `squeue` shows it, and with `--wait` among the options it ends with the array. Then merge.py puts the plans together.
here=$(cd "$(dirname "${BASH_SOURCE[0]}")" && pwd) || exit 2
[ $# -ge 2 ] || { sed -n '2,9s/^# \{0,1\}//p' "${BASH_SOURCE[0]}" >&2; exit 2; }
command -v sbatch >/dev/null || { echo "slurm.sh: sbatch is not installed; on Debian: apt-get install slurm-wlm" >&2; exit 2; }
program=$(realpath "$1") && folder=$(realpath "$2") || exit 2
[ -x "$program" ] || { echo "slurm.sh: no program at $program" >&2; exit 2; }
[ -f "$folder/manifest" ] || { echo "slurm.sh: $folder has no manifest; cut.py makes it" >&2; exit 2; }
shift 2
left=
for name in $(sed -n 's/^SHARD \([^ ]*\) .*/\1/p' "$folder/manifest"); do
  grep -qs '^[01] ' "$folder/$name.status" || left=$left,$((10#${name#shard-}))
done
[ -n "$left" ] || { echo "slurm.sh: every shard has a plan" >&2; exit 0; }
exec sbatch --array="${left#,}" --output="$folder/task-%a.log" "$@" "$here/array.sbatch" "$here/one.sh" "$program" "$folder"
