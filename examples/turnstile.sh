#!/bin/sh
# A turnstile that holds two coins at most, as a child program: it is asked a line at a time, and answers each with a line.
coins=0
while read -r line; do
    case $line in
        reset) coins=0; echo ready ;;
        'in coin') if [ $coins -lt 2 ]; then coins=$((coins + 1)); echo out taken; else echo out returned; fi ;;
        'in push') if [ $coins -gt 0 ]; then coins=$((coins - 1)); echo out turned; else echo out locked; fi ;;
        *) exit 1 ;;
    esac
done
