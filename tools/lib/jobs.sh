#!/bin/sh
# Prints how many proofs the machine can run side by side: at most one for each processor and for each 4 GB
# of memory, within the limits of the control group. With less than 8 GB it prints why that is too little,
# on standard error, and ends with 1.
#
# By itself `rt` books 1 GB and 1 MB a line for each crate, and so leaves processors idle: the largest
# proofs take 3 to 5 GB, and most take 1 to 2.

# The smallest number that the files hold; a missing file, or `max`, sets no limit.
smallest() {
  cat "$@" 2>/dev/null | grep -xE '[0-9]{1,15}' | sort -n | head -n 1
}

kib=$(awk '/^MemTotal:/ { print $2 }' /proc/meminfo)
limit=$(smallest /sys/fs/cgroup/memory.max /sys/fs/cgroup/memory/memory.limit_in_bytes)
[ -z "$limit" ] || [ $((limit / 1024)) -ge "$kib" ] || kib=$((limit / 1024))
# 8 GB as machines are sold: 8,000,000,000 bytes, in KiB.
if [ "$kib" -lt 7812500 ]; then
  echo "a proof takes up to 5 GB, so 8 GB of memory are needed, and there are $((kib / 976563))" >&2
  exit 1
fi

jobs=$(nproc)
read -r quota period _ 2>/dev/null </sys/fs/cgroup/cpu.max || quota=max
case $quota in
max | *[!0-9]*) ;;
*) [ $((quota / period)) -ge "$jobs" ] || jobs=$((quota / period)) ;;
esac
# 4 GB, in KiB.
[ $((kib / 3906250)) -ge "$jobs" ] || jobs=$((kib / 3906250))
[ "$jobs" -ge 1 ] || jobs=1
echo "$jobs"
