#!/usr/bin/env bash
# Runs the built program as a user does, over real arguments, files and outputs, and compares what it prints and the
# status that it ends with. What is checked here stands in no contract: that the words are the process's arguments, that
# a name opens the file of that name, that standard output takes the bytes, and that `main` ends with the status.
#
#     tools/program/check.sh [PROGRAM]
#
# It prints each row that fails and a count, and ends with status 1 where a row fails. All that was printed is then read by the
# strict readers of tools/hostile/answers.py, and the plans and bookings are shown by tools/view, where there is a Python; what
# needs a package that is missing is skipped, and says so.
top=$(cd "$(dirname "${BASH_SOURCE[0]}")/../.." && pwd) || exit 2
# (without words the script at the top builds the program, where that is still to be done, and ends with status 2)
[ $# -gt 0 ] || "$top/passplan" >/dev/null
program=$(realpath "${1:-$top/crates/passplan/out/passplan}") || exit 2
[ -x "$program" ] || { echo "check.sh: no program at $program" >&2; exit 2; }
folder=$(mktemp -d) || exit 2
trap 'rm -rf "$folder"' EXIT
cd "$folder" || exit 2

line1='1 00005U 58002B   00179.78495062  .00000023  00000-0  28098-4 0  4753'
line2='2 00005  34.2682 348.7242 1859667 331.7664  19.3264 10.82419157413667'
other1='1 25544U 98067A   08264.51782528 -.00002182  00000-0 -11606-4 0  2927'
other2='2 25544  51.6416 247.4627 0006703 130.5360 325.0288 15.72125391563537'
mkdir sub 'with blank' printed
printf '%s\r\n' "$line1" "$line2" >a
printf '%s\n' 'ISS (ZARYA)' "$other1" "$other2" >sub/b
cp sub/b 'with blank/b=c'
printf ' \r\n\n\t\n' >blank
printf '%s\n' "$line1" >odd
printf '%s\n' "$line1" "${line2%7}6" >check
for _ in $(seq 16385); do printf '%s\n' "$line1" "$line2"; done >many
head -c 16777217 /dev/zero >long
head -c 16777216 /dev/zero | tr '\0' '\n' >full

rows=0
failed=0
# fails NAME WANTED FOUND
fails() {
  failed=$((failed + 1))
  printf 'row %s failed\n  wanted: %q\n  found:  %q\n' "$1" "$2" "$3"
}
# keep STATUS   keeps what was printed with this status for the readers
keep() {
  cp out "printed/$rows.$1"
}
# row STATUS OUTPUT WORDS..   the program of these words ends so, prints this and nothing on standard error
row() {
  local wanted="$1 $2" found
  shift 2
  rows=$((rows + 1))
  "$program" "$@" >out 2>err
  found="$? $(cat out; printf .)"
  found=${found%.}
  keep "${found%% *}"
  [ "$found" = "$wanted" ] || fails "$rows ($*)" "$wanted" "$found"
  [ ! -s err ] || fails "$rows ($*): standard error" '' "$(cat err)"
}
# heads STATUS LINES WORDS..   the same, but only these first lines of the output are compared
heads() {
  local wanted="$1 $2" found count
  count=$(printf '%s' "$2" | wc -l)
  shift 2
  rows=$((rows + 1))
  "$program" "$@" >out 2>err
  found="$? $(head -n "$count" out; printf .)"
  found=${found%.}
  keep "${found%% *}"
  [ "$found" = "$wanted" ] || fails "$rows ($*)" "$wanted" "$found"
}
# holds STATUS PATTERN WORDS..   the program ends so, and its output matches the pattern, an extended regular expression in
# which `~` stands for a line feed
holds() {
  local wanted="$1 ${2//\~/$'\n'}" found
  shift 2
  rows=$((rows + 1))
  "$program" "$@" >out 2>err
  found="$? $(cat out; printf .)"
  found=${found%.}
  keep "${found%% *}"
  [[ $found =~ ^${wanted%% *}\ .*(${wanted#* }) ]] || fails "$rows ($*)" "$wanted" "$found"
  [ ! -s err ] || fails "$rows ($*): standard error" '' "$(cat err)"
}
# cut STATUS WORDS..   the program ends so over a full device
cut() {
  local wanted=$1 found
  shift
  rows=$((rows + 1))
  "$program" "$@" >/dev/full 2>err
  found=$?
  [ "$found" = "$wanted" ] || fails "$rows ($*) over a full device" "$wanted" "$found"
}

# day_of LETTER START END RESOLUTION   the lines of one span, and a point that keeps the last line feed
day_of() {
  printf 'PASSDAY 1\nWINDOW %s %s %s\n%s %s %s\nEND\n.' "$2" "$3" "$4" "$1" "$2" "$3"
}
june=(--start=2000-06-21T00:00:00Z --end=2000-06-21T01:00:00Z)
light=$(day_of L 2000-06-21T00:00:00.0000Z 2000-06-21T01:00:00.0000Z 1)
night=$(day_of N 2000-06-21T00:00:00.0000Z 2000-06-21T01:00:00.0000Z 1)
noon=$(day_of L 2000-01-01T12:00:00.0000Z 2000-01-01T13:00:00.0000Z 60)
row 0 "${light%.}" day --lat=90 --lon=0 "${june[@]}" --res=1
row 0 "${night%.}" day --res 1 "${june[@]}" --lon 0 --lat=-90
row 0 "${noon%.}" day --lat 0 --lon 0 --start 2000-01-01T12:00:00Z --end 2000-01-01T13:00:00Z --res 60

shown='SET 5 2000-06-27T18:50:19.733568000Z 10.82419157 0.1859667 34.2682 348.7242 331.7664 19.3264 0.000028098 -'
station='SET 25544 2008-09-20T12:25:40.104192000Z 15.72125391 0.0006703 51.6416 247.4627 130.536 325.0288 -0.000011606 ISS (ZARYA)'
row 0 "PASSSHOW 1"$'\n'"$shown"$'\n'"END"$'\n' show --catalogue=a --start=2000-06-28T00:00:00Z
row 0 "PASSSHOW 1"$'\n'"$station"$'\n'"END"$'\n' show --start=2000-06-28T00:00:00Z --catalogue sub/b
row 0 "PASSSHOW 1"$'\n'"$station"$'\n'"END"$'\n' show --catalogue='with blank/b=c' --start=2000-06-28T00:00:00Z
row 0 "PASSSHOW 1"$'\n'"$shown"$'\n'"END"$'\n' show --catalogue="$folder/sub/../a" --start=2000-06-28T00:00:00Z

at=2000-06-27T18:50:19.733568Z
heads 0 $'PASSLOCATE 1\nAT 2000-06-27T18:50:19.733568000Z\nSAT 5 OK -\n' locate --catalogue=a --number=5 --at=$at
row 1 $'PASSLOCATE 1\nAT 2000-06-27T18:50:19.733568000Z\nMISSING 6\nEND\n' locate --catalogue=a --number=6 --at=$at
row 1 $'PASSLOCATE 1\nAT 2000-06-27T18:50:19.733568000Z\nSAT 25544 FAR ISS (ZARYA)\nEND\n' \
  locate --catalogue=sub/b --number=25544 --at=$at

# the README's commands
holds 0 'SAT 25544 OK ISS \(ZARYA\)~.*~PAIR 25544 1 SPANS 21~.*~TABLE 1 5~' plan --catalogue="$top/examples/iss.tle" \
  --stations="$top/examples/stations.toml" --start=2008-09-20T12:00:00Z --end=2008-09-21T12:00:00Z --res=1
holds 0 '~SET 25544 ' show --catalogue="$top/examples/iss.tle" --start=2008-09-20T00:00:00Z
holds 0 'SAT 25544 OK ISS \(ZARYA\)~X ' locate --catalogue="$top/examples/iss.tle" --number=25544 --at=2008-09-20T12:00:00Z

# plans: the equatorial satellite 90001 seen from the pole, from the equator along the borders of a mask, and the
# International Space Station over a day
circle='1 90001U 00001A   00179.00000000  .00000000  00000-0  00000-0 0    12'
printf '%s\n' "$circle" '2 90001   0.0000   0.0000 0010000   0.0000   0.0000 15.00000000    10' >c
printf '%s\n' "$circle" '2 90001   0.0000   0.0000 0010000   0.0000   0.0000  6.00000000    10' >deep
printf '%s\n' "$circle" '2 90001   0.0000   0.0000 2000001   0.0000   0.0000 15.00000000    12' >eccentric
# pole_with LINE..   a station file of the pole, with these lines in the place of `mask`
pole_with() {
  printf '%s\n' 'version = 1' '[[station]]' 'name = "Pole"' 'lat = "90"' 'lon = "0"' 'height = "0"' "$@"
}
pole_with 'mask = "0"' >p
pole_with 'mask = "-90"' >open
pole_with 'borders = ["0", "91", "180", "270"]' 'masks = ["0", "0", "0", "0"]' >gap
sed 's/lat = "90"/lat = 90.0/' p >number
sed 's/lat = "90"/lat = "90.5"/' p >beyond
{ cat p; sed 1d p; } >twice
{ cat p; printf '\xff'; } >bytes
sed 's/version = 1/version = 2\ndut1_ms = 0/' p >second
sed 's/version = 1/version = 2\ndut1_ms = -334/' p >offset
sed 's/version = 1/version = 2/' p >offsetless
sed 's/version = 1/version = 2\ndut1_ms = 901/' p >faroffset
sed 's/version = 1/version = 1\ndut1_ms = 0/' p >earlyoffset
sed 's/version = 1/version = 3/' p >third
printf 'version = 1\n' >nostation
printf '%s\n' 'version = 1' '[[station]]' 'name = "Equator"' 'lat = "0"' 'lon = "0"' 'height = "0"' \
  'borders = ["0", "90", "180", "270"]' 'masks = ["0", "80", "80", "0"]' >borders
printf '%s\n' 'version = 1' '[[station]]' 'name = "Munich"' 'lat = "48.1"' 'lon = "11.3"' 'height = "600"' 'mask = "5"' >munich
hour=(--start=2000-06-27T00:00:00Z --end=2000-06-27T01:00:00Z --res=1)
over='2000-06-27T00:00:00.0000Z 2000-06-27T01:00:00.0000Z'
row 1 "PASSPLAN 1"$'\n'"WINDOW $over 1"$'\nSTATION 1 Pole\nSAT 90001 DEEP -\nTABLE 1 0\nEND\n' \
  plan --catalogue=deep --stations=p "${hour[@]}"
row 1 "PASSPLAN 1"$'\n'"WINDOW $over 1"$'\nSTATION 1 Pole\nSAT 90001 ECCENTRIC -\nTABLE 1 0\nEND\n' \
  plan --catalogue=eccentric --stations=p "${hour[@]}"
july='2000-07-05T00:00:00.0000Z 2000-07-05T01:00:00.0000Z'
row 1 "PASSPLAN 1"$'\n'"WINDOW $july 1"$'\nSTATION 1 Pole\nSAT 90001 FAR -\nTABLE 1 0\nEND\n' \
  plan --catalogue=c --stations=p --start=2000-07-05T00:00:00Z --end=2000-07-05T01:00:00Z --res=1
holds 0 "SAT 90001 OK -~LIT 90001 SPANS .*~PAIR 90001 1 SPANS 1~H $over~TABLE 1 0~END~$" \
  plan --catalogue=c --stations=p "${hour[@]}"
holds 0 "~PAIR 90001 1 SPANS 1~V $over~TABLE 1 1~PASS $over 90001~END~$" plan --catalogue=c --stations=open "${hour[@]}"
holds 1 '~PAIR 90001 1 UNRESOLVED 2000-06-27T0[01]:[0-9:.]*Z 2000-06-27T0[01]:[0-9:.]*Z~TABLE 1 0~END~$' \
  plan --catalogue=c --stations=borders --start=2000-06-27T00:00:00Z --end=2000-06-27T02:00:00Z --res=1
holds 0 'SAT 25544 OK ISS \(ZARYA\)~.*~TABLE 1 5~(PASS [0-9TZ:.-]* [0-9TZ:.-]* 25544~){5}END~$' \
  plan --catalogue=sub/b --stations=munich --start=2008-09-20T12:00:00Z --end=2008-09-21T12:00:00Z --res=1
holds 0 "WINDOW $over 1~STATION 1 Pole~" plan --catalogue=c --stations=second "${hour[@]}"
holds 0 "WINDOW $over 1~DUT1 -334~STATION 1 Pole~" plan --catalogue=c --stations=offset "${hour[@]}"
row 5 $'error stations shape 1 lat\n' plan --catalogue=c --stations=number "${hour[@]}"
row 5 $'error stations mask 1\n' plan --catalogue=c --stations=gap "${hour[@]}"
row 5 $'error stations twice 2\n' plan --catalogue=c --stations=twice "${hour[@]}"
row 5 $'error stations range 1 lat\n' plan --catalogue=c --stations=beyond "${hour[@]}"
row 5 $'error stations notutf8\n' plan --catalogue=c --stations=bytes "${hour[@]}"
row 5 $'error stations shape 0 version\n' plan --catalogue=c --stations=/dev/null "${hour[@]}"
row 5 $'error stations empty\n' plan --catalogue=c --stations=nostation "${hour[@]}"
row 5 $'error stations shape 0 dut1_ms\n' plan --catalogue=c --stations=offsetless "${hour[@]}"
row 5 $'error stations range 0 dut1_ms\n' plan --catalogue=c --stations=faroffset "${hour[@]}"
row 5 $'error stations shape 0 other\n' plan --catalogue=c --stations=earlyoffset "${hour[@]}"
row 5 $'error stations shape 0 version\n' plan --catalogue=c --stations=third "${hour[@]}"
row 4 $'error catalogue empty\n' plan --catalogue=blank --stations=number "${hour[@]}"
row 6 $'error read\n' plan --catalogue=c --stations=absent "${hour[@]}"
row 7 $'error toolong\n' plan --catalogue=c --stations=long "${hour[@]}"
row 2 $'error usage missing stations\n' plan --catalogue=c "${hour[@]}"
row 3 $'error window order\n' plan --catalogue=c --stations=p --start=2000-06-27T00:00:00Z --end=2000-06-27T00:00:00Z --res=1

# bookings: one contact of the whole hour, none, a satellite that is refused; and the files' faults in their order
booked="PASSBOOK 1"$'\n'"WINDOW $over 1"$'\nSTATION 1 Pole\nSAT 90001 OK -\n'
heads 0 "$booked"$'BOOK 1 1 36000000\n'"USE $over 90001 1"$'\n' book --catalogue=c --stations=open "${hour[@]}" --antennas=1
row 0 "$booked"$'BOOK 1 0 0\nEND\n' book --catalogue=c --stations=p "${hour[@]}" --antennas 64
row 1 "PASSBOOK 1"$'\n'"WINDOW $over 1"$'\nSTATION 1 Pole\nSAT 90001 DEEP -\nBOOK 1 0 0\nEND\n' \
  book --catalogue=deep --stations=p "${hour[@]}" --antennas=01
row 2 $'error usage value antennas\n' book --catalogue=c --stations=p "${hour[@]}" --antennas=0
row 2 $'error usage value antennas\n' book --catalogue=absent --stations=absent "${hour[@]}" --antennas=65
row 2 $'error usage missing antennas\n' book --catalogue=c --stations=p "${hour[@]}"
row 4 $'error catalogue empty\n' book --catalogue=blank --stations=number "${hour[@]}" --antennas=1
row 5 $'error stations shape 1 lat\n' book --catalogue=c --stations=number "${hour[@]}" --antennas=1
row 6 $'error read\n' book --catalogue=c --stations=absent "${hour[@]}" --antennas=1

# the generated satellites
heads 0 $'PASSGRID 1\nSATS 1\nREFUSED 0\nVISIBLE 0 0\nHIDDEN 2 72000000\nUNDECIDED 0 0\nUNRESOLVED 0\nFULL 0\nDECAYS 0\n' \
  grid --count=1
holds 0 'PASSGRID 1~SATS 20~REFUSED 0~' grid --count=20
"$program" grid --count=20 >once
row 0 "$(cat once)"$'\n' grid --count=20
# (judges that never tell of a part of a cell would ask for more than twice as many verdicts)
rows=$((rows + 1))
cells=$(awk '/^CELLS/ { print $2 }' once)
[ "$cells" -le 1336 ] || fails "$rows (verdicts of grid)" 'at most 1336' "$cells"
row 2 $'error usage value count\n' grid --count=0
row 2 $'error usage value count\n' grid --count=1001
row 2 $'error usage value count\n' grid --count=01
row 2 $'error usage missing count\n' grid

row 2 $'error usage nocommand\n'
row 2 $'error usage command\n' --help
row 2 $'error usage command\n' ''
row 2 $'error usage command\n' 'day --lat=90'
row 2 $'error usage missing lat\n' day
row 2 $'error usage word 2\n' day --lat -90 --lon=0 "${june[@]}" --res=1
row 2 $'error usage word 3\n' day --lat=1 $'--lon=\xff'
row 2 $'error usage word 2\n' show --catalogue= --start=2000-06-28T00:00:00Z
row 3 $'error window order\n' day --lat=90 --lon=0 --start=2000-06-21T00:00:00Z --end=2000-06-21T00:00:00Z --res=1
row 3 $'error window resolution\n' day --lat=90 --lon=0 "${june[@]}" --res=61
row 4 $'error catalogue empty\n' show --catalogue=blank --start=2000-06-28T00:00:00Z
row 4 $'error catalogue empty\n' show --catalogue=full --start=2000-06-28T00:00:00Z
row 4 $'error catalogue empty\n' show --catalogue=/dev/null --start=2000-06-28T00:00:00Z
row 4 $'error catalogue odd 1\n' locate --catalogue=odd --number=5 --at=$at
row 4 $'error catalogue set 1 tle check 2 6 7\n' show --catalogue=check --start=2000-06-28T00:00:00Z
row 4 $'error catalogue toomany\n' show --catalogue=many --start=2000-06-28T00:00:00Z
row 6 $'error read\n' show --catalogue=absent --start=2000-06-28T00:00:00Z
row 6 $'error read\n' show --catalogue=a/b --start=2000-06-28T00:00:00Z
row 6 $'error read\n' show --catalogue=sub --start=2000-06-28T00:00:00Z
row 7 $'error toolong\n' show --catalogue=long --start=2000-06-28T00:00:00Z
row 7 $'error toolong\n' locate --catalogue=/dev/zero --number=5 --at=$at

cut 8 day --lat=90 --lon=0 "${june[@]}" --res=1
cut 8 plan --catalogue=c --stations=p "${hour[@]}"
cut 8 show --catalogue=a --start=2000-06-28T00:00:00Z
cut 8 locate --catalogue=a --number=6 --at=$at
cut 2 --help
cut 6 show --catalogue=absent --start=2000-06-28T00:00:00Z

# shown   what was printed is read strictly, and plans and bookings are shown; status 1 where a test fails
shown() {
  local python texts
  [ -n "$(type -P python3)" ] || { echo "check.sh: skipping the readers: there is no python3"; return 0; }
  for python in python3 /usr/bin/python3; do
    ! "$python" -c 'import icalendar, matplotlib' 2>/dev/null || break
  done
  [ -x "$(type -P "$python")" ] || python=python3
  mapfile -t texts < <(grep -l -a -E -m 1 '^PASS(PLAN|BOOK) 1$' printed/*)
  "$python" "$top/tools/hostile/test.py" && "$python" "$top/tools/hostile/answers.py" printed &&
    "$python" "$top/tools/view/test.py" "${texts[@]}"
}
shown || failed=$((failed + 1))

echo "check.sh: $rows rows, $failed failed"
[ "$failed" -eq 0 ]
