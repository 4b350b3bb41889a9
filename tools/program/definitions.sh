#!/usr/bin/env bash
# Compares the text of the definitions, and the tables of the tests, with separate computations. What is checked here stands in no
# contract: that the definitions are those of their public sources, and that expected values are what their scripts make.
#
#     tools/program/definitions.sh
#
# It takes less than a minute, prints a line for each comparison, all of one that differs, and ends with status 1 where one does.
# It needs Python with mpmath (Debian's python3-mpmath); where that is missing it says so and ends with status 0.
top=$(cd "$(dirname "${BASH_SOURCE[0]}")/../.." && pwd) || exit 2
cd "$top" || exit 2
export PYTHONDONTWRITEBYTECODE=1
python=
for each in python3 /usr/bin/python3; do
  if "$each" -c 'import mpmath' 2>/dev/null; then
    python=$each
    break
  fi
done
[ -n "$python" ] || { echo "definitions.sh: skipping all comparisons: there is no python3 with mpmath"; exit 0; }

compared=0
failed=0
# compare SCRIPT [LINE]   runs it; of what it prints this line stands for it, the last one where none is named
compare() {
  local printed
  compared=$((compared + 1))
  if printed=$("$python" "$1" 2>&1); then
    printf '%s: %s\n' "$1" "$(sed -n "${2:-\$}p" <<<"$printed")"
  else
    failed=$((failed + 1))
    printf '%s differs:\n%s\n' "$1" "$printed"
  fi
}
compare tools/equations/compare.py 1
compare tools/equations/sky.py 1
compare tools/angles/compare_sums.py
compare tools/words/expected.py
compare tools/program/tables.py

echo "definitions.sh: $compared comparisons, $failed differ"
[ "$failed" -eq 0 ]
