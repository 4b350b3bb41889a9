#!/usr/bin/env bash
# Builds the program: proves it and each library that it stands on, lowest first, on all processors. Says on standard error
# which crate of how many is proved. What is proved here is kept on this machine: a later `rt ci` does not prove it again.
#
#     tools/program/build.sh
#
# Commands of rt in one checkout wait for each other, all but rt ci, which proves side by side; so it is run on a copy that holds
# these crates alone, without tests and wrong bodies.
top=$(cd "$(dirname "${BASH_SOURCE[0]}")/../.." && pwd) || exit 2
copy=$(mktemp -d) || exit 2
trap 'rm -rf "$copy"' EXIT

# what each crate of the repository stands on, of the repository alone
declare -A below
while IFS= read -r line; do
  [[ $line =~ ^([a-z0-9_]+)[^:]*:(.*)$ ]] || continue
  below[${BASH_REMATCH[1]}]=${BASH_REMATCH[2]}
done <"$top/crates.txt"

# the program and the libraries below it, each once
declare -A wanted=([passplan]=1)
gather() {
  local name
  for name in ${below[$1]}; do
    [[ -v below[$name] && ! -v wanted[$name] ]] || continue
    wanted[$name]=1
    gather "$name"
  done
}
gather passplan
count=${#wanted[@]}

mkdir "$copy/crates" "$copy/.git" && cp "$top/HANDLES" "$copy" || exit 2
tar -C "$top/crates" --exclude=out --exclude=must-fail -cf - "${!wanted[@]}" | tar -C "$copy/crates" -xf - || exit 2
for name in "${!wanted[@]}"; do
  echo "$name: ${below[$name]}" >>"$copy/crates.txt"
done

proved=0
(cd "$copy" && CI= exec rt ci 2>&1 </dev/null) | tee "$copy/log" | while IFS= read -r line; do
  [[ $line =~ ^rt:\ ([a-z0-9_]+)\ (proved$|is\ kept:) ]] || continue
  proved=$((proved + 1))
  echo "passplan: proved ${BASH_REMATCH[1]}, $proved of $count" >&2
done
built=$copy/crates/passplan/out/passplan
[ -x "$built" ] || { cat "$copy/log" >&2; exit 1; }
mkdir -p "$top/crates/passplan/out" && cp "$built" "$top/crates/passplan/out/passplan"
