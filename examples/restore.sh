#!/bin/sh
# Uploads programs to a server that has just been started: FOLDER/N.img goes to slot N. First it waits
# until the server responds.
#
# Use: restore.sh PORT FOLDER [SECONDS]
#
# The server listens on PORT of 127.0.0.1. The script waits for it for 10 seconds, or SECONDS. FCREQ
# names the client, if it isn't `fcreq` on the path. The output has a line for each slot: the server's
# response, or why there is none.
#
# Status: 0 if each program was installed; 1 if one wasn't, after all others were tried; 3 if the server
# didn't respond in time.
port=$1 folder=$2 tries=$((${3:-10} * 20)) client=${FCREQ:-fcreq} failed=0

# While no server listens on the port, fcreq ends immediately with status 3. Any response is accepted,
# also 5.03.
until "$client" --port "$port" get /.well-known/core -f /dev/null > /dev/null 2>&1 || [ $? = 1 ]; do
    tries=$((tries - 1))
    [ "$tries" -gt 0 ] || { echo "restore.sh: no answer at port $port" >&2; exit 3; }
    sleep 0.05
done

for image in "$folder"/*.img; do
    [ -e "$image" ] || continue # the folder has none
    slot=$(basename "$image" .img)
    told=$("$client" --port "$port" --text put "/p/$slot" -f "$image" 2>&1) || failed=1
    echo "slot $slot:" $told # on one line
done
exit $failed
