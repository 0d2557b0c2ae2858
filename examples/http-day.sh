#!/bin/sh
# A day at a desk in Frankfurt, over HTTP: the station is in a file, and curl asks. In mid day the service is killed (kill -9), started again, and goes on.
# Usage: examples/http-day.sh PROGRAM [FOLDER [PORT]]
# PROGRAM is the built cargo_desk; FOLDER, where the file shall be, has no fra.db yet; without one the file goes at the end. PORT is 8089 if absent.
# It prints http-day.txt: the requests, the status and the body of each answer. Days and times are the clock's, so they are
# shown as YYYY-MM-DD, HH:MM and DDMMM, DDMMMHHMM. It reads day/, where @DATE@ and @DDMMM@ mean today (UTC).
set -eu
program=$1
case $program in /*) ;; *) program=$PWD/$program ;; esac
inputs=$(cd "$(dirname "$0")" && pwd)/day
scratch=$(mktemp -d)
service=
trap '[ -z "$service" ] || kill -9 "$service" 2> /dev/null || true; rm -rf "$scratch"' EXIT
folder=${2:-$scratch}
port=${3:-8089}
today=$(date -u +%Y-%m-%d)
ddmmm=$(LC_ALL=C date -u +%d%b | tr '[:lower:]' '[:upper:]')

# An input of the day, with today's date.
input() {
    sed -e "s/@DATE@/$today/g" -e "s/@DDMMM@/$ddmmm/g" "$inputs/$1"
}

# Without the days and times of the clock.
undated() {
    sed -E -e 's/20[0-9]{2}-[0-9]{2}-[0-9]{2}( [0-9]{2}:[0-9]{2})?/YYYY-MM-DD\1/g' \
        -e 's/YYYY-MM-DD [0-9]{2}:[0-9]{2}/YYYY-MM-DD HH:MM/g' \
        -e 's#/[0-9]{2}(JAN|FEB|MAR|APR|MAY|JUN|JUL|AUG|SEP|OCT|NOV|DEC)[0-9]{4}/#/DDMMMHHMM/#g' \
        -e 's#/[0-9]{2}(JAN|FEB|MAR|APR|MAY|JUN|JUL|AUG|SEP|OCT|NOV|DEC)/#/DDMMM/#g' | tr -d '\r'
}

# Starts the service, and waits until it says that it listens.
start() {
    echo "\$ cargo_desk --db fra.db serve --port PORT"
    : > "$scratch/service"
    "$program" --db fra.db serve --port "$port" > "$scratch/service" 2>&1 < /dev/null &
    service=$!
    until grep -q listening "$scratch/service"; do
        kill -0 "$service" || { cat "$scratch/service"; exit 1; }
        sleep 1
    done
    cat "$scratch/service"
}

# Kills the service, as a crash would.
kill_it() {
    echo "\$ kill -9"
    kill -9 "$service"
    wait "$service" 2> /dev/null || true
    service=
}

# One request: its words, its answer's body, and the status of the answer.
ask() {
    method=$1
    path=$2
    shift 2
    echo "\$ curl -X $method $path"
    code=$(curl -s -S -o "$scratch/body" -w '%{http_code}' -X "$method" "$@" "http://127.0.0.1:$port$path")
    undated < "$scratch/body"
    [ -z "$(tail -c 1 "$scratch/body")" ] || echo
    echo "[$code]"
}

# A command under a key, with a body of JSON.
act() {
    echo "# Request-Key: $2, $3"
    input "$3" > "$scratch/input"
    ask POST "/v1/act/$1" -H "Request-Key: $2" --data-binary "@$scratch/input"
}

# A telegram.
take() {
    echo "# $1"
    input "$1" > "$scratch/input"
    ask POST /v1/telegrams --data-binary "@$scratch/input"
}

cd "$folder"

echo "== The file is made, and the service begins."
echo "\$ cargo_desk --db fra.db --station FRA init"
"$program" --db fra.db --station FRA init
start

echo "== A shipment is received."
act take-in s1 take-in.json
act issue s2 issue.json
act issue s3 issue.json
take fwb.txt
act receive r1 receive.json
act receive r2 receive-more.json
act manifest m1 manifest.json
ask GET /v1/waybills/020-12345675

echo "== The service is killed in mid day and starts again. What was answered is there, and a repeat has its answer."
kill_it
start
ask GET /v1/waybills/020-12345675
act receive r1 receive.json
act manifest m1 manifest.json

echo "== The day goes on."
act depart d1 depart.json
take ffm.txt
take ffm-cut.txt
act check-in a1 check-in.json
act notify n1 notify.json
act deliver v1 deliver.json
act receive r3 bad.json
ask GET /v1/stock/020-12345675
ask GET /v1/stock/020-12345686
ask GET /v1/stock/057-12345675
ask GET /v1/outbox
act confirm c1 confirm.json
for name in stock shed flights expected irregularities movements trail; do
    ask GET "/v1/reports/$name"
done

echo "== The service ends. The command line finds the same station."
kill_it
echo "\$ cargo_desk --db fra.db report stock"
"$program" --db fra.db report stock
