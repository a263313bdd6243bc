#!/usr/bin/env bash
# Two people in two folders whose texts carry delivery receipts: one says three texts, and one of them is lost on its way.
# The answer tells which texts came, so the packet of the lost one is carried once more. It shows each command with what
# was answered, and fails if anything is off.
set -euo pipefail
top=$(cd "$(dirname "${BASH_SOURCE[0]}")/.." && pwd)
[ $# = 0 ] || { echo "usage: examples/receipts.sh    it takes no words, and ends within seconds" >&2 && exit 2; }
program=${MESSENGER:-$top/messenger}
work=$(mktemp -d)
trap 'rm -rf "$work"' EXIT
mkdir "$work/first" "$work/second"

# runs the program in the folder of a side
as() { # side, words
  local side=$1
  shift
  (cd "$work/$side" && "$program" "$@")
}

# the packet at a place of a side's outbox, from 1, in hex
packet_of() { as "$1" outbox | sed -n "${2}s/^[0-9.]* //p"; } # side, place

# runs the program in the folder of a side, shows what it answers, and compares that
shows() { # side, what must be answered, words; after take the packet's position
  local side=$1 expected=$2 words=("${@:3}") input=/dev/null told="${*:3}" answered
  if [ "$3" = take ]; then words=(take) input=$work/$4 told="take < $4"; fi
  answered=$(as "$side" "${words[@]}" <"$input")
  printf '  %-6s  %-20s  %s\n' "$side" "$told" "${answered//$'\n'/, }"
  if [ "$answered" != "$expected" ]; then
    printf 'expected: %s\n' "$expected" >&2
    exit 1
  fi
}

key=$(od -An -v -N32 -tx1 /dev/urandom | tr -d ' \n')
[ "$(as first begin first receipts <<<"$key")" = "$(as second begin second receipts <<<"$key")" ]

echo "Second says three texts, keeps a copy of their packets and sends them off. All three wait for a receipt:"
shows second "said 0.1" say 'are you there?'
shows second "said 0.2" say 'it is me'
shows second "said 0.3" say 'call back'
for place in 1 2 3; do packet_of second "$place" >"$work/0.$place"; done
shows second "sent 3" sent 3
shows second $'awaiting 3\n0.1\n0.2\n0.3' awaiting

echo "The packet of 0.2 is lost. First takes the two others, and answers:"
shows first "opened 0.3" take 0.3
shows first "opened 0.1" take 0.1
shows first "said 1.1" say 'here I am'
packet_of first 1 >"$work/1.1"
shows first "sent 1" sent 1

echo "Second takes the answer, whose receipt says that 0.1 and 0.3 were opened, and 0.2 wasn't:"
shows second "opened 1.1" take 1.1
shows second $'awaiting 1\n0.2' awaiting

echo "So the packet of 0.2 is carried once more, and First, who has it now, says another text:"
shows first "opened 0.2" take 0.2
shows first $'0.3 "call back"\n0.1 "are you there?"\n0.2 "it is me"' inbox
shows first "said 1.2" say 'now I have all'
packet_of first 1 >"$work/1.2"
shows first $'awaiting 2\n1.1\n1.2' awaiting

echo "With that nothing of Second's waits any more. First's own texts wait until Second says something:"
shows second "opened 1.2" take 1.2
shows second "awaiting 0" awaiting
shows second "said 2.1" say 'good'
packet_of second 1 >"$work/2.1"
shows first "opened 2.1" take 2.1
shows first "awaiting 0" awaiting
