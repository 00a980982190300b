#!/bin/bash
# Writes the readings' file once a second, as a driver of the sensors would: the temperatures inside and
# outside, the humidity, the minute of the day, and a counter that is never 0.
#
# Use: sensors.sh VALUES READINGS
#
# VALUES has a line `INSIDE OUTSIDE HUMIDITY [MINUTE]`, in tenths; without MINUTE the minute is
# that of the host's clock.
byte() {
    printf "\\x$(printf %02x $(($1 & 255)))"
}
for ((count = 1; ; count = count % 255 + 1)); do
    read -r inside outside humidity minute <"$1" || { sleep 0.1 && continue; } # it is being written now
    for it in "$inside" "$outside" "$humidity" "${minute:-$((10#$(date +%H) * 60 + 10#$(date +%M)))}"; do
        byte "$it" && byte $((it >> 8))
    done >"$2.new"
    { byte $count && head -c 47 /dev/zero; } >>"$2.new" && mv "$2.new" "$2"
    sleep 1
done
