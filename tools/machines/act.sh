#!/bin/sh
# act.sh ROOM MACHINE TEXT: the command of the tests. It appends to ROOM/effects, a line each:
# `begun MACHINE TEXT` and `did MACHINE TEXT`. It fails if ROOM/fails exists, and waits between the
# two while ROOM/waits exists.
machine=${2##*/}
echo "begun $machine $3" >> "$1/effects"
[ -e "$1/fails" ] && exit 3
sleep 0.05
while [ -e "$1/waits" ]; do sleep 0.05; done
echo "did $machine $3" >> "$1/effects"
sleep 0.02
