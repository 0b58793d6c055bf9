#!/usr/bin/env bash
# Refuses the allocations of a crate's tests one at a time, without a proof, by `rt try --test --fail-alloc N`.
#
# usage: tools/try/refuse_memory.sh CRATE [FIRST [LAST]]
#
# N goes from FIRST (1) to LAST, or until no allocation is refused any more. Each number builds the tests anew,
# which takes a minute: tools/try/refuse_memory.py does the same for the built program in much less time. A test
# that runs out of memory fails, or ends with its own answer; an abort, a fault or a hang is wrong. A line for
# each number tells how it ended, and the status is 1 where one was wrong.
crate=${1?usage: tools/try/refuse_memory.sh CRATE [FIRST [LAST]]}
number=${2-1}
last=${3-1000000}
cd "$(dirname "$0")/../../crates/$crate" || exit 2
wrong=0
while [ "$number" -le "$last" ]; do
  said=$(rt try --test --fail-alloc "$number" 2>&1)
  status=$?
  ended=$(printf '%s\n' "$said" | tail -n 1)
  made=$(printf '%s\n' "$said" | sed -n 's/^allocations: //p' | sort -n | tail -n 1)
  printf '%s: status %s, %s\n' "$number" "$status" "$ended"
  case $status in
  2) exit 2 ;;
  4 | 5 | 6) wrong=1 && printf '%s\n' "$said" ;;
  esac
  [ -n "$made" ] && [ "$made" -lt "$number" ] && break
  number=$((number + 1))
done
exit $wrong
