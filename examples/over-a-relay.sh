#!/usr/bin/env bash
# Two people in two folders, and a relay that keeps their packets: texts go both ways, the relay is killed and started again
# in between, and one side is offline for a while. The answer's receipt tells which texts came. It shows both inboxes, and
# fails if anything is off.
set -euo pipefail
[ $# = 0 ] || { echo "usage: examples/over-a-relay.sh    it takes no words, and ends within seconds" >&2 && exit 2; }
source "$(dirname "${BASH_SOURCE[0]}")/over-a-relay.lib"

begin_both
start_relay "$session-1" "$session-2"

echo "second says two texts while first is offline:"
as second say 'are you there?' >/dev/null
as second say 'the relay keeps this' >/dev/null
expect "$(shown sync_of second)" $'stored 1\nstored 2\nend'

echo "the relay is killed, and a sync meets nobody:"
stop_relay
as second say 'sent later' >/dev/null
expect "$(sync_of second || echo "status $?")" $'fault: link\nstatus 7'

echo "the relay is started again, and has kept all; first syncs and answers:"
start_relay "$session-1" "$session-2"
expect "$(shown sync_of first)" $'opened 0.1\nopened 0.2\nend'
as first say 'here I am' >/dev/null
expect "$(shown sync_of first)" $'stored 1\nend'

echo "second syncs: the answer comes, and what waited goes:"
expect "$(as second awaiting)" $'awaiting 3\n0.1\n0.2\n0.3'
expect "$(shown sync_of second)" $'opened 1.1\nstored 3\nend'
echo "the answer's receipt says that the first two of second's texts were opened, so the third alone waits for one:"
expect "$(shown as second awaiting)" $'awaiting 1\n0.3'
expect "$(shown sync_of first)" $'opened 0.3\nend'
expect "$(sync_of first)" "end"

echo "first's inbox:"
as first inbox | tee "$work/inbox"
expect "$(cat "$work/inbox")" $'0.1 "are you there?"\n0.2 "the relay keeps this"\n0.3 "sent later"'
echo "second's inbox:"
as second inbox | tee "$work/inbox"
expect "$(cat "$work/inbox")" '1.1 "here I am"'
expect "$(as first outbox)$(as second outbox)" ""
