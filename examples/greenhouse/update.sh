#!/bin/bash
# Puts another program into a slot and keeps the variables of the earlier one, so that no relay moves.
# The same command restores the earlier program. An image with another size of variables is refused,
# since the variables would be lost.
#
# Use: update.sh PORT N IMAGE      FCREQ names the client, if it isn't the built one
ask() {
    "${FCREQ:-crates/fcreq/out/fcreq}" --port "$1" --text "${@:2}"
}
has=$(ask "$1" -n get "/p/$2" | sed -n 's/.* vars=//p') wants=$(($(od -An -tu2 -j4 -N2 "$3")))
[ "$has" = "$wants" ] || { echo "update.sh: slot $2 has ${has:-no} bytes of variables, and $3 wants $wants" >&2; exit 1; }
ask "$1" put "/p/$2?keep" -f "$3"
