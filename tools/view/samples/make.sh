#!/usr/bin/env bash
# Writes the samples that the program prints: deep.txt, station.txt and two.txt; and docs/plan.png, the picture of the plan of
# examples/ that README.md shows, where the packages for pictures are there. answers.txt and book.txt are made by hand, since a plan
# seldom has all their answers at once. Run it once the program is built; the tests count what the samples have and need no other
# change.
#
#     tools/view/samples/make.sh [PROGRAM]
here=$(cd "$(dirname "${BASH_SOURCE[0]}")" && pwd) || exit 2
program=$(realpath "${1:-$here/../../../crates/passplan/out/passplan}") || exit 2
top=$(realpath "$here/../../..") || exit 2
folder=$(mktemp -d) || exit 2
trap 'rm -rf "$folder"' EXIT
cd "$folder" || exit 2

cat >deep <<'END'
1 90001U 00001A   00179.00000000  .00000000  00000-0  00000-0 0    12
2 90001   0.0000   0.0000 0010000   0.0000   0.0000  6.00000000    10
END
cat >station <<'END'
ISS (ZARYA)
1 25544U 98067A   08264.51782528 -.00002182  00000-0 -11606-4 0  2927
2 25544  51.6416 247.4627 0006703 130.5360 325.0288 15.72125391563537
END
{
  cat station
  cat <<'END'
$100, "A" \ B; C
1 00005U 58002B   08264.50000000  .00000023  00000-0  28098-4 0  4750
2 00005  34.2682 348.7242 1859667 331.7664  19.3264 10.82419157413667
1 90001U 00001A   00179.00000000  .00000000  00000-0  00000-0 0    12
2 90001   0.0000   0.0000 0010000   0.0000   0.0000 15.00000000    10
END
} >two
cat >pole.toml <<'END'
version = 1
[[station]]
name = "Pole"
lat = "90"
lon = "0"
height = "0"
mask = "0"
END
cat >station.toml <<'END'
version = 1
[[station]]
name = "Hohenpeissenberg"
lat = "48.1"
lon = "11.3"
height = "600"
mask = "5"
END
cat >two.toml <<'END'
version = 2
dut1_ms = -334
[[station]]
name = "Köln, $am$ Rhein"
lat = "50.94"
lon = "6.96"
height = "50"
borders = ["0", "80", "165.5", "250", "300"]
masks = ["5", "12.5", "3", "20", "8"]
[[station]]
name = "Quito"
lat = "-0.2"
lon = "281.5"
height = "2850"
mask = "10"
END
# plan FILE SETS STATIONS START END RESOLUTION   status 0 and 1 are those of a plan
plan() {
  "$program" plan --catalogue="$2" --stations="$3" --start="$4" --end="$5" --res="$6" >printed
  [ $? -le 1 ] && mv printed "$1" || { echo "make.sh: $1: $(cat printed)" >&2; exit 1; }
}
plan "$here/deep.txt" deep pole.toml 2000-06-27T00:00:00Z 2000-06-27T01:00:00Z 1
plan "$here/station.txt" station station.toml 2008-09-20T12:00:00Z 2008-09-21T12:00:00Z 1
plan "$here/two.txt" two two.toml 2008-09-20T12:00:00Z 2008-09-21T00:00:00Z 10

plan example "$top/examples/iss.tle" "$top/examples/stations.toml" 2008-09-20T12:00:00Z 2008-09-21T12:00:00Z 1
for python in python3 /usr/bin/python3; do
  ! "$python" -c 'import matplotlib' 2>/dev/null || break
done
"$python" "$top/tools/view/view.py" example shown --only=plan --only=png && cp shown/plan.png "$top/docs/plan.png"
