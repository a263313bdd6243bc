#!/usr/bin/env bash
# Two people in two folders, with one shared key: one says three texts, the packets are carried by hand, out of order and
# one of them twice, and an answer goes back. It shows both inboxes, and fails if anything is off.
set -euo pipefail
top=$(cd "$(dirname "${BASH_SOURCE[0]}")/.." && pwd)
[ $# = 0 ] || { echo "usage: examples/two-folders.sh    it takes no words, and ends within seconds" >&2 && exit 2; }
program=${MESSENGER:-$top/messenger}
work=$(mktemp -d)
trap 'rm -rf "$work"' EXIT
mkdir "$work/first" "$work/second"

# runs the program in the folder of a side
as() { # side, words
  local side=$1
  shift
  (cd "$work/$side" && "$program" "$@")
}

# the packet at a place of a side's outbox, from 1, in hex
packet_of() { as "$1" outbox | sed -n "${2}s/^[0-9.]* //p"; } # side, place

# what was answered must be this
expect() { # what was answered, what must be
  if [ "$1" != "$2" ]; then
    printf 'answered: %s\nexpected: %s\n' "$1" "$2" >&2
    exit 1
  fi
}

key=$(od -An -v -N32 -tx1 /dev/urandom | tr -d ' \n')
expect "$(as first begin first receipts <<<"$key")" "$(as second begin second receipts <<<"$key")"

expect "$(as second say 'are you there?')" "said 0.1"
expect "$(as second say 'it is me')" "said 0.2"
expect "$(as second say -- '- call back')" "said 0.3"

for place in 3 1 2; do
  expect "$(packet_of second "$place" | as first take)" "opened 0.$place"
done
expect "$(packet_of second 1 | as first take || echo "status $?")" $'refused: Spent 0.1\nstatus 3'
expect "$(as second sent 3)" "sent 3"

expect "$(as first say 'here I am')" "said 1.1"
expect "$(packet_of first 1 | as second take)" "opened 1.1"
expect "$(as first sent 1)" "sent 1"

echo "first's inbox:"
as first inbox | tee "$work/inbox"
expect "$(cat "$work/inbox")" $'0.3 "- call back"\n0.1 "are you there?"\n0.2 "it is me"'
echo "second's inbox:"
as second inbox | tee "$work/inbox"
expect "$(cat "$work/inbox")" '1.1 "here I am"'
expect "$(as first "done" 3)" "done 3"
expect "$(as first state | tail -n +2)" $'side first\nepoch 1\nmissing 0\ninbox 0\noutbox 0'
