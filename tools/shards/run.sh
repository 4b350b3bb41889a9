#!/usr/bin/env bash
# Plans all shards of a folder that cut.py made, side by side, by GNU parallel (Debian: apt-get install parallel).
#
#     tools/shards/run.sh PROGRAM FOLDER [OPTION OF parallel]..
#
# It shows a bar and the time that is left. FOLDER/jobs has a line for each run that ended; a second call leaves out what went
# well and runs the rest. Without further options as many run at once as the machine has cores; `--jobs 4` runs four.
# It ends with status 0 where every shard has a plan, and then merge.py puts them together.
#
# Other machines that see FOLDER and PROGRAM under the same names, without a password asked for:
#
#     tools/shards/run.sh PROGRAM FOLDER --sshlogin 8/first.example,16/second.example,:
#
# 8/ is the number of runs at once there, and : is this machine. README.md says how to use machines that share no files.
here=$(cd "$(dirname "${BASH_SOURCE[0]}")" && pwd) || exit 2
[ $# -ge 2 ] || { sed -n '2,16s/^# \{0,1\}//p' "${BASH_SOURCE[0]}" >&2; exit 2; }
command -v parallel >/dev/null || { echo "run.sh: parallel is not installed; on Debian: apt-get install parallel" >&2; exit 2; }
program=$(realpath "$1") && folder=$(realpath "$2") || exit 2
[ -x "$program" ] || { echo "run.sh: no program at $program" >&2; exit 2; }
[ -f "$folder/manifest" ] || { echo "run.sh: $folder has no manifest; cut.py makes it" >&2; exit 2; }
shift 2
sed -n 's/^SHARD \([^ ]*\) .*/\1/p' "$folder/manifest" |
  parallel --bar --eta --joblog "$folder/jobs" --resume-failed "$@" "$here/one.sh" "$program" "$folder" {}
failed=$?
[ $failed -eq 0 ] || echo "run.sh: not every shard has a plan; $folder/jobs has the statuses" >&2
exit $((failed > 0))
