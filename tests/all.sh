#!/usr/bin/env bash
# All tests: the gate, and then side by side the built programs as a shell runs them, failing allocations, interrupted
# writes, the C library, rows of numbers in locales, Rust and Dask, setting up, the guide, installs, releases, manual
# pages, what counts as the rejection of a wrong body, the documents, and the modules. A script that has not ended after
# half an hour fails, and so does one that is killed; an interrupt ends all of them. The last lines are `not run: ..`
# for each thing that is missing here, and `N passed, M failed`; the status is 0 if M is 0.
set -u
unset CDPATH
cd -- "$(dirname -- "$0")/.." || exit 1
# One run at a time: another one would remove what the gate has built, and the scripts would not find it.
exec 9< tests/all.sh || exit 1
flock -n 9 || { echo 'waits for another tests/all.sh in this clone'; flock 9; }
room=$(mktemp -d) || exit 1
passed=0
failed=0

# end_all: ends what is still running. Each script has a session of its own.
end_all() {
  local sessions
  sessions=$(jobs -rp | paste -sd ,)
  [ -z "$sessions" ] || pkill -s "$sessions"
  rm -rf "$room"
}
trap end_all EXIT
trap 'exit 130' HUP INT TERM

# The shell that leads a session: it runs a command, and then ends what is left of it, also if the command was killed.
leader='"$@"; status=$?; trap "" TERM; pkill -s $$; exit $status'

# count NAME STATUS LOG: adds up the last line of tests, `N passed, M failed`. Without it, or if the status is another
# or nothing has passed or failed, one more has failed.
count() {
  local more=0
  if [[ $(tail -n 1 "$3") =~ ^([0-9]+)\ passed,\ ([0-9]+)\ failed$ ]]; then
    passed=$((passed + BASH_REMATCH[1]))
    failed=$((failed + BASH_REMATCH[2]))
    [ "$2" = 0 ] && [ "${BASH_REMATCH[1]}" != 0 ] || more=$((BASH_REMATCH[2] == 0))
  else
    more=1
  fi
  [ $more = 0 ] || echo "failed: $1 ended with status $2"
  failed=$((failed + more))
}

# One job for each check, as many checks as there are processors: two jobs take a third more processor time.
export RT_JOBS=${RT_JOBS:-$(nproc)} JOBS=${JOBS:-1}
: > "$room/log"
setsid bash -c "$leader" - python3 tools/built.py gate >> "$room/log" 2>&1 9<&- &
gate=$!
tail -n +1 -f --pid=$gate "$room/log" 9<&- &
shown=$!
wait $gate
status=$?
wait $shown
count 'the gate' $status "$room/log"

# The scripts take what `rt ci` has just built, and nothing else. Those that take longest begin.
export BUILT_BY_GATE=1
scripts=(tests/{c,postgresql,end_to_end,installs,setting_up,guide,releases,dask,hosts,manuals,allocation_failures}.sh
  tests/{interrupted_writes.sh,rows.py,rejections.py}
  tools/check_{documents,modules}.py)
started=()
for script in "${scripts[@]}"; do
  while [ "$(jobs -rp | wc -l)" -ge "$(nproc)" ]; do wait -n; done
  setsid bash -c "$leader" - timeout -k 1m 30m "$script" > "$room/${#started[@]}" 2>&1 9<&- &
  started+=($!)
done
for number in "${!scripts[@]}"; do
  wait "${started[number]}"
  status=$?
  echo "== ${scripts[number]}"
  cat "$room/$number"
  count "${scripts[number]}" $status "$room/$number"
done

cat "$room"/[0-9]* | grep '^not run: ' | sort -u
echo "$passed passed, $failed failed"
[ "$failed" -eq 0 ]
