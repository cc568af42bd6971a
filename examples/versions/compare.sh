#!/bin/sh
# Learns two systems and compares their models: a step of a build that fails where a new version behaves otherwise than the old one.
#
#     compare.sh SETUP SETUP [OPTION..]        the options are those of `learn`, as --extra 2, and are taken for both
#
# Ends with status 0 where the models are equal; with 1 where they differ, and prints the least word on which they do, with the
# outputs of both; and with another status, of `learn`, where a model couldn't be learned. What `learn` says stands behind the
# name of its setup, on standard error.
if [ $# -lt 2 ]; then
    echo "usage: $0 SETUP SETUP [OPTION..]" >&2
    exit 2
fi
old=$1 new=$2
shift 2
nofjand=$(dirname "$0")/../../nofjand
models=$(mktemp -d) || exit 1
trap 'rm -r "$models"' EXIT
trap 'exit 130' INT
trap 'exit 143' TERM
printf '%s: ' "$old" >&2
"$nofjand" learn "$old" --model "$models/old.json" "$@" || exit
printf '%s: ' "$new" >&2
"$nofjand" learn "$new" --model "$models/new.json" "$@" || exit
"$nofjand" compare "$models/old.json" "$models/new.json"
