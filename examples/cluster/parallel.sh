#!/bin/sh
# Mines N shares with GNU parallel and merges their outputs: parallel.sh N FOLDER SUPPORT WORD..
# The words behind the support are those of one run, but for --engine and --split. FOLDER gets the output of each share and a
# log, by which a second call runs those shares alone that failed. With HOSTS, a file of hosts for ssh, a line each, the
# shares run there; desq and the files have the same paths on each.
set -eu
of=$1 folder=$2 support=$3
shift 3
desq=${DESQ:-./desq}
mkdir -p "$folder"
seq "$of" | parallel --quote --joblog "$folder/log" --resume-failed --results "$folder/{}" \
    ${HOSTS:+--sshloginfile "$HOSTS" --workdir "$PWD"} \
    "$desq" --support "$support" --engine pivot --split "{}/$of" "$@" > /dev/null
exec "$desq" --support "$support" --merge $(seq -f "$folder/%.0f" "$of")
