#!/bin/bash
# The bridge of bridge.sh with libcoap's client, of Debian's package libcoap3-bin.
#
# Use: examples/bridge-libcoap.sh [-s STATE] [-t SECONDS] URI COMMAND..
exec "$(dirname "$0")/bridge.sh" -l "$@"
