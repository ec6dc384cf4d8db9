#!/bin/sh
# point.sh STATE UNTIL NAME: brings the series of one point up to date (monitor.sh calls it for each).
#
# Of STATE/points/NAME/sessions it makes series.tsv, summary.txt and status beside it, on an alarm series.png, and
# STATE/metrics/NAME.prom. A session of the time UNTIL should be there. A file `since` beside them has the time before which
# alarms are acknowledged, as 2005-04-02T13:00. The status is that of `series`: 0, 1 on an alarm, 2 where it failed; where there
# is none point.sh failed itself.
set -u
[ $# = 3 ] || { echo 'usage: point.sh STATE UNTIL NAME' >&2; exit 2; }
folder=$1/points/$3
mkdir -p -- "$folder/sessions" && rm -f -- "$folder/status" || exit 2
set -- --name="$3" --until="$2" --log="$folder/series.tsv" --metrics="$1/metrics/$3.prom" --program="${BASELINE:-baseline}"
[ ! -e "$folder/since" ] || set -- "$@" --since="$(cat -- "$folder/since")"
# options are words without blanks, so splitting is meant; but a `*` in them is no pattern
set -f
series() { "${SURVEY:-baseline-survey}" series ${SERIES:-} "$@" -- "$folder/sessions"; }
series "$@" >"$folder/.summary" 2>&1
status=$?
[ "$status" != 1 ] || series "$@" --picture="$folder/series.png" >/dev/null || [ $? = 1 ] || status=2
mv -- "$folder/.summary" "$folder/summary.txt" && echo "$status" >"$folder/.status" && mv -- "$folder/.status" "$folder/status"
