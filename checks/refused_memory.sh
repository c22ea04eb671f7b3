#!/usr/bin/env bash
# Refuses each allocation of the program in turn, one a run, in four commands: `exec` of the dot product of eight,
# `compile` of two multiples, which are gathered, and of four squarings, which is too deep, and `plain` of one line. Each
# run must end as it does with all memory, or say `out of memory`, print nothing and leave every file as it was; where
# memory runs out before the words are read, `main` says nothing. It is no part of the gate and takes minutes.
# usage: checks/refused_memory.sh [PROGRAM], where the program is that of ./heco if none is named
set -u
top=$(cd "$(dirname "${BASH_SOURCE[0]}")/.." && pwd) || exit 1
heco=${1:-$top/.build/heco}
[ -x "$heco" ] || { echo "refused_memory.sh: there is no program $heco" >&2; exit 1; }
heco=$(cd "$(dirname "$heco")" && pwd)/$(basename "$heco")
room=$(mktemp -d) || exit 1
trap 'rm -rf "$room"' EXIT
cd "$room" || exit 1

# malloc and realloc, by which the program takes all its memory: the call of the number REFUSED answers NULL. At the end
# the count of calls is written to descriptor 9, where that is open.
cat >refuse.c <<'C'
#include <errno.h>
#include <stdio.h>
#include <stdlib.h>

void *__libc_malloc(size_t size);
void *__libc_realloc(void *block, size_t size);

static unsigned long calls, refused;

__attribute__((constructor)) static void begin(void) {
  const char *number = getenv("REFUSED");
  refused = number ? strtoul(number, NULL, 10) : 0;
  calls = 0;
}

__attribute__((destructor)) static void end(void) { dprintf(9, "%lu\n", calls); }

static int is_refused(void) {
  if (++calls != refused) return 0;
  errno = ENOMEM;
  return 1;
}

void *malloc(size_t size) { return is_refused() ? NULL : __libc_malloc(size); }

void *realloc(void *block, size_t size) { return is_refused() ? NULL : __libc_realloc(block, size); }
C
cc -O2 -shared -fPIC -o refuse.so refuse.c || exit 1

cp "$top/examples/dot8.he" "$top/examples/dot8.in" "$top/examples/deep.he" . || exit 1
echo 'params p8; fn f(in x, out y) { y = x; }' >line.he
echo 'params p8; fn f(in x[2], out y[2]) { y[0] = 2*x[0]; y[1] = 3*x[1]; }' >two.he
echo 'x = 256' >line.in
"$heco" compile dot8.he c && "$heco" draw c 1 k e && rm c || exit 1

made=(c s v t r)

# Runs the words with that call refused, none for 0; the files that a command may write hold other text before. What
# comes of it: the status, and sums of both streams and of the files.
ended() {
  local number=$1
  shift
  printf 'old\n' | tee "${made[@]}" >/dev/null
  LD_PRELOAD=$room/refuse.so REFUSED=$number "$heco" "$@" >out 2>err 9>calls
  echo $?
  cksum out err "${made[@]}"
}

# The same where memory ran out, with this text on the error stream.
want_of_memory() {
  printf 'old\n' | tee "${made[@]}" >/dev/null
  : >out
  printf '%s' "$1" >err
  echo 5
  cksum out err "${made[@]}"
}
memory=$(want_of_memory $'out of memory\n')
silent=$(want_of_memory '')
failed=0

# Tries each call of the words.
try() {
  local own found count number refusals=0 unsaid=0 same=0 wrong=0
  own=$(ended 0 "$@")
  count=$(<calls)
  [ "${count:-0}" -gt 0 ] || { echo "refused_memory.sh: no call was counted" >&2; exit 1; }
  for ((number = 1; number <= count; number++)); do
    found=$(ended "$number" "$@")
    if [ "$found" = "$memory" ]; then
      refusals=$((refusals + 1))
    elif [ "$found" = "$silent" ] && [ "$unsaid" -eq $((number - 1)) ]; then
      unsaid=$((unsaid + 1))
    elif [ "$found" = "$own" ]; then
      same=$((same + 1))
    else
      wrong=$((wrong + 1)) failed=1
      printf 'call %s of %s: status %s, %s\n' "$number" "$1" "${found%%$'\n'*}" "$(head -c 200 err)"
    fi
  done
  printf '%s: %s calls, of which %s ended in want of memory, %s before the words were read, %s as with all memory, %s wrongly\n' \
    "$*" "$count" "$refusals" "$unsaid" "$same" "$wrong"
}

try exec dot8.he dot8.in k e "${made[@]}"
try compile two.he c
try compile deep.he c
try plain line.he line.in
exit "$failed"
