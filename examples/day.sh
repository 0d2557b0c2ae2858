#!/bin/sh
# A day at a desk in Frankfurt, by the command line: its station is in a file, and each step is a call of the program.
# Usage: examples/day.sh PROGRAM [FOLDER]
# PROGRAM is the built cargo_desk; FOLDER, where the file shall be, has no fra.db yet. Without one the file goes at the end.
# It prints day.txt: the calls, what they print, and each status that isn't 0. Days and times are the clock's, so they are
# shown as YYYY-MM-DD, HH:MM and DDMMM, DDMMMHHMM. It reads day/, where @DATE@ and @DDMMM@ mean today (UTC).
set -eu
program=$1
case $program in /*) ;; *) program=$PWD/$program ;; esac
inputs=$(cd "$(dirname "$0")" && pwd)/day
scratch=$(mktemp -d)
trap 'rm -rf "$scratch"' EXIT
folder=${2:-$scratch}
today=$(date -u +%Y-%m-%d)
ddmmm=$(LC_ALL=C date -u +%d%b | tr '[:lower:]' '[:upper:]')

# An input of the day, with today's date.
input() {
    sed -e "s/@DATE@/$today/g" -e "s/@DDMMM@/$ddmmm/g" "$inputs/$1"
}

# Without the days and times of the clock.
undated() {
    sed -E -e 's/20[0-9]{2}-[0-9]{2}-[0-9]{2}( [0-9]{2}:[0-9]{2})?/YYYY-MM-DD\1/g' \
        -e 's/YYYY-MM-DD [0-9]{2}:[0-9]{2}/YYYY-MM-DD HH:MM/g' \
        -e 's#/[0-9]{2}(JAN|FEB|MAR|APR|MAY|JUN|JUL|AUG|SEP|OCT|NOV|DEC)[0-9]{4}/#/DDMMMHHMM/#g' \
        -e 's#/[0-9]{2}(JAN|FEB|MAR|APR|MAY|JUN|JUL|AUG|SEP|OCT|NOV|DEC)/#/DDMMM/#g' | tr -d '\r'
}

# One call, with standard input: its words, what it prints, and its status if it isn't 0.
call() {
    echo "\$ cargo_desk $*"
    status=0
    "$program" "$@" > "$scratch/said" 2>&1 || status=$?
    undated < "$scratch/said"
    [ "$status" -eq 0 ] || echo "[status $status]"
}

# The same, on a file of the day as standard input.
call_with() {
    name=$1
    shift
    echo "# $name:"
    input "$name" | undated | sed 's/^/# /'
    input "$name" > "$scratch/input"
    call "$@" < "$scratch/input"
}

# A telegram of the day.
take() {
    echo "# $1:"
    input "$1" | undated | sed 's/^/# /'
    input "$1" > "$1"
    call --db fra.db take "$1" < /dev/null
    rm "$1"
}

desk="--db fra.db"
cd "$folder"

echo "== No station yet; one is made, and made once."
call $desk report stock < /dev/null
call $desk --station FRA init < /dev/null
call $desk --station FRA init < /dev/null

echo "== The stock list: a run that is taken (102), a row again, its key for another row (501), a row of another shape."
call_with stock.csv $desk stock

echo "== A shipment is announced and received. Received again under the same key it is the same; a piece too many is refused."
take fwb.txt
call_with receive.json $desk act receive r1
call_with receive.json $desk act receive r1
call_with receive-more.json $desk act receive r2
call_with bad.json $desk act receive r3

echo "== Four pieces leave."
call_with manifest.json $desk act manifest m1
call_with depart.json $desk act depart d1

echo "== A flight comes: two pieces are missing, one of them is found later. A telegram without its last line is refused."
take ffm.txt
take fsu.txt
call_with check-in.json $desk act check-in a1
call_with notify.json $desk act notify n1
call_with deliver.json $desk act deliver v1
call_with found.json $desk act found f1
take ffm-cut.txt

echo "== What goes out: all messages, and those that are left when three are confirmed."
call $desk outbox < /dev/null
call_with confirm.json $desk act confirm c1
call $desk outbox < /dev/null

echo "== The reports."
for name in stock shed flights expected irregularities movements trail; do
    call $desk report "$name" < /dev/null
done
