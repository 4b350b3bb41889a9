#!/usr/bin/env bash
# Plans one shard of a folder that cut.py made. run.sh and slurm.sh call it.
#
#     tools/shards/one.sh PROGRAM FOLDER SHARD
#
# The plan goes to FOLDER/SHARD.plan. FOLDER/SHARD.status is written last: the program's status and the digests of what it read.
# It ends with status 0 where the program ended with 0 or 1, else with the program's status.
program=$1 name=$3
cd "$2" || exit 9
rm -f "$name.plan" "$name.status"
mapfile -t words <request || exit 9
"$program" plan --catalogue="$name" --stations=stations "${words[@]}" >"$name.part" </dev/null
status=$?
digests=$(sha256sum "$name" stations request | cut -d' ' -f1 | tr '\n' ' ')
mv "$name.part" "$name.plan" && echo "$status ${digests% }" >"$name.status.part" && mv "$name.status.part" "$name.status" || exit 9
[ "$status" -le 1 ] || exit "$status"
