#!/usr/bin/env bash
# Two people and a relay that guards their boxes: `relay-keys` prints the keys, the relay is started with them, and texts go both
# ways. A stranger who knows a box's name is denied, and what waits stays. It fails if anything is off.
set -euo pipefail
[ $# = 0 ] || { echo "usage: examples/guarded.sh    it takes no words, and ends within seconds" >&2 && exit 2; }
source "$(dirname "${BASH_SOURCE[0]}")/over-a-relay.lib"

# what the relay replies to a frame, in hex
ask() { # frame in hex
  exec 3<>"/dev/tcp/127.0.0.1/$port"
  printf '%b' "$(sed 's/../\\x&/g' <<<"$1")" >&3
  timeout 5 head -c 12 <&3 | od -An -v -tx1 | tr -d ' \n'
  exec 3>&-
}

begin_both
echo "both sides print the same keys of their boxes, and the relay is started with them:"
as first relay-keys | tee "$work/keys"
expect "$(as second relay-keys)" "$(cat "$work/keys")"
mapfile -t boxes <"$work/keys"
start_relay "${boxes[@]}"

echo "texts go both ways:"
as second say 'are you there?' >/dev/null
expect "$(shown sync_of second)" $'stored 1\nend'
expect "$(shown sync_of first)" $'opened 0.1\nend'
as first say 'here I am' >/dev/null
expect "$(sync_of first)" $'stored 1\nend'

echo "a stranger knows the name of second's box, and asks for what waits:"
name=$(printf '%s-2' "$session" | od -An -v -tx1 | tr -d ' \n')
fetch=$(printf '%04x02%02x%s' $((2 + ${#name} / 2)) $((${#name} / 2)) "$name")
expect "$(ask "$fetch")" 000a89010000000000000000
echo "denied: 000a8901.."

echo "second's text is still there:"
expect "$(shown sync_of second)" $'opened 1.1\nend'

echo "a relay whose boxes have no keys serves the same syncs:"
stop_relay
rm "$work/relay/relay.state"
start_relay "$session-1" "$session-2"
as first say 'without keys' >/dev/null
expect "$(sync_of first)" $'stored 1\nend'
expect "$(sync_of second)" $'opened 1.2\nend'
