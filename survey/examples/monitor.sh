#!/bin/sh
# monitor.sh UPLOADS STATE [HOUR ..]: from a folder of uploads to the alarm (survey/OPERATOR.md).
#
# UPLOADS/HOUR/ has BASE.obs, NAME.obs of each point and brdc.nav; HOUR is as 20050402_1200, in GPS time. STATE/POINTS has the
# points' names, one a line. Each point that was uploaded gets a baseline from BASE by recipes/one in STATE/hours/HOUR/, and its
# certificate goes to STATE/points/NAME/sessions/HOUR.cert; then point.sh brings the series of every point up to date.
# Without HOUR the last two full hours are done, so that what came late or was cut off is caught up.
#
# Prints a summary for a mail, which STATE/summary.txt has too. Status: 0; 1 an alarm; 2 something failed; 75 another run holds
# STATE/lock. A run that was stopped is done by the next: what has an answer isn't done again, and what isn't whole doesn't count.
# Variables: BASELINE and SURVEY name the commands, OPTIONS are those of `fix`, SERIES those of `baseline-survey series`, JOBS
# is how many processes run at a time, RECIPES the folder of `one` and `retry`. SLURM=N gives the baselines to Slurm, N a task.
set -u
state=
# A failure stands in the summary too, so that no mail has that of an earlier run.
stop() {
    printf 'monitor.sh: %s\n' "$2" >&2
    [ "$1" = 75 ] || [ -z "$state" ] || printf 'monitor.sh: %s\n' "$2" >"$state/summary.txt"
    exit "$1"
}
[ $# -ge 2 ] || { echo 'usage: monitor.sh UPLOADS STATE [HOUR ..]' >&2; exit 2; }
here=$(dirname -- "$(readlink -f -- "$0")")
uploads=$(readlink -e -- "$1") && state=$(readlink -e -- "$2") || stop 2 'UPLOADS or STATE is no folder'
shift 2
program() { case $1 in */*) readlink -f -- "$1";; *) printf '%s\n' "$1";; esac; }
recipes=$(readlink -f -- "${RECIPES:-$here/../../recipes}")
BASELINE=$(program "${BASELINE:-baseline}") SURVEY=$(program "${SURVEY:-baseline-survey}") JOBS=${JOBS:-4}
OPTIONS=${OPTIONS:-} SERIES=${SERIES:-} SLURM=${SLURM:-0} OPENBLAS_NUM_THREADS=1
export BASELINE SURVEY OPTIONS SERIES OPENBLAS_NUM_THREADS
[ $# -gt 0 ] || set -- "$(date -u -d '2 hours ago' +%Y%m%d_%H00)" "$(date -u -d '1 hour ago' +%Y%m%d_%H00)"
points=$(LC_ALL=C sort -u -- "$state/POINTS" | grep .) || stop 2 "no names in $state/POINTS"
case $points in */*) stop 2 "a name of $state/POINTS has a /";; esac
exec 9>"$state/lock"
flock -n 9 || stop 75 "another run holds $state/lock"
mkdir -p -- "$state/points" "$state/metrics" || exit 2

# The files of the hour under the names that `one` wants, and the names of the points that have some.
collect() {
    mkdir -p -- "$work" && ln -sfT -- "$uploads/$hour" "$work/uploads" || return
    printf '%s\n' "$points" | while IFS= read -r name; do
        [ -e "$work/uploads/$name.obs" ] || continue
        ln -sfT -- uploads/BASE.obs "$work/$name.base" && ln -sfT -- "uploads/$name.obs" "$work/$name.rover" &&
            ln -sfT -- uploads/brdc.nav "$work/$name.nav" && printf '%s\n' "$name" || return
    done >"$work/NAMES"
}

# Fixes what has no answer yet, and says what has none then, with the last that `one` or Slurm complained of.
fix() {
    cd -- "$work" && "$recipes/retry" NAMES >AGAIN || return
    if [ "$SLURM" = 0 ]; then
        xargs -d '\n' -r -P "$JOBS" -n 1 "$recipes/one" <AGAIN
    else
        tasks=$((($(grep -c '' AGAIN) + SLURM - 1) / SLURM))
        [ "$tasks" = 0 ] || RECIPES=$recipes sbatch --quiet --wait --array="1-$tasks%$JOBS" "$recipes/array.sbatch" AGAIN "$SLURM"
    fi 2>errors
    {
        "$recipes/retry" NAMES | while IFS= read -r name; do
            printf 'hour %s point %s: %s\n' "$hour" "$name" "$(tail -n 1 -- "./$name.log" 2>/dev/null || echo 'no answer')"
        done
        [ ! -s errors ] || printf 'hour %s: %s\n' "$hour" "$(tail -n 1 errors)"
    } | cat -v
}

# Puts the hour's certificates, declines too, into the points' folders, each whole.
publish() {
    while IFS= read -r name; do
        [ -e "$work/$name.cert" ] || continue
        sessions=$state/points/$name/sessions
        mkdir -p -- "$sessions" || return
        cmp -s -- "$work/$name.cert" "$sessions/$hour.cert" && continue
        cp -- "$work/$name.cert" "$sessions/.$hour.part" && mv -- "$sessions/.$hour.part" "$sessions/$hour.cert" || return
    done <"$work/NAMES"
}

# What the series say: a line for all, then the summaries of those with an alarm or a failure.
summary() {
    alarms=0 failed=0 all=0
    while IFS= read -r name; do
        all=$((all + 1))
        case $(cat -- "$state/points/$name/status" 2>/dev/null) in
            0) continue;;
            1) alarms=$((alarms + 1));;
            *) failed=$((failed + 1));;
        esac
        printf '\n' && cat -- "$state/points/$name/summary.txt"
    done >"$state/.summaries" <<END
$points
END
    printf 'until %s: %s points, %s with an alarm, %s failed\n' "$until" "$all" "$alarms" "$failed" && cat -- "$state/.found" "$state/.summaries"
}

: >"$state/.found" || exit 2
for hour; do
    work=$state/hours/$hour
    if [ ! -d "$uploads/$hour" ]; then
        printf 'hour %s: no uploads\n' "$hour"
        continue
    fi
    collect && (fix) && publish || stop 2 "hour $hour: $work can't be written"
done >>"$state/.found"
until=$(printf '%s' "$hour" | sed 's/^\(....\)\(..\)\(..\)_\(..\)\(..\)$/\1-\2-\3T\4:\5/')
printf '%s\n' "$points" | xargs -d '\n' -P "$JOBS" -n 1 sh "$here/point.sh" "$state" "$until"
summary >"$state/.summary" && mv -- "$state/.summary" "$state/summary.txt" || exit 2
rm -f -- "$state/.found" "$state/.summaries"
cat -- "$state/summary.txt"
[ "$failed" = 0 ] || exit 2
[ "$alarms" = 0 ] || exit 1
