#!/bin/sh
# Sets the relays to a state such as `heater=on vent=off alarm=off`. On a device the relays
# are pins; here each is a file in the folder PINS.
for it in $1; do
    echo "${it#*=}" >"${PINS:-pins}/${it%%=*}" || exit 1
done
