#!/bin/sh
# Starts an adapter on another machine: `remote.sh FOLDER ADAPTER` as the command of a setup, where FOLDER has this repository
# there and ADAPTER is `mqtt` or another one. The instance's number picks the machine: child 0 drives the host `host0` of
# ~/.ssh/config, or of the file that SSH_CONFIG names, child 1 drives `host1` and so on, so sixteen workers drive sixteen machines.
# The secure shell is asked for no password: keys have to be there. It carries the lines of the learner and of the adapter as they
# stand. Where the learner ends or is killed, the shell's input ends and with it the adapter's, which ends its server over there.
# The same without this file, in a setup:
#   "command": ["sh", "-c", "exec ssh -T host$NOFJAND_INSTANCE 'cd nofjand && exec python3 examples/servers/mqtt.py'"]
exec ssh ${SSH_CONFIG:+-F "$SSH_CONFIG"} -o BatchMode=yes -T "host$NOFJAND_INSTANCE" \
    "cd '$1' && NOFJAND_INSTANCE=$NOFJAND_INSTANCE exec python3 'examples/servers/$2.py'"
