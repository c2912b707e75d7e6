#!/usr/bin/env bash
# What tools/proofs makes of what `rt ci` says, by an rt that says what it is told to.
set -uo pipefail
cd "$(dirname "$0")/../.." || exit

passed=0
failed=0
folder=$(mktemp -d)
trap 'rm -rf "$folder"' EXIT

# rt: says what stands in the file said, after its arguments and where it is, and ends with the status in the file status.
cat >"$folder/rt" <<'RT'
#!/bin/sh
here=$(dirname "$0")
echo "rt $* in $PWD"
cat "$here/said"
exit "$(cat "$here/status")"
RT
chmod +x "$folder/rt"

# told STATUS LINE...: what tools/proofs prints, and its exit status, where rt says these lines and ends so.
told() {
  printf '%s\n' "$1" >"$folder/status"
  shift
  printf '%s\n' "$@" >"$folder/said"
  PATH="$folder:$PATH" tools/proofs
  echo "status $?"
}

# demand WHAT TEXT TEXT: counts whether both texts are equal.
demand() {
  if [[ $2 == "$3" ]]; then
    passed=$((passed + 1))
  else
    printf 'proofs: %s\nexpected: %s\nfound: %s\n' "$1" "$2" "$3"
    failed=$((failed + 1))
  fi
}

ok='rt: ok; handles allowed: none; must-fail edits: 3 refused'
behind='; every proof and must-fail edit was done in this run'

demand "all is shown, from the top of the repository, and all is well" \
  "$(printf '%s\n' "rt ci in $PWD" 'fn low::a: proved' "$ok$behind" '4 passed, 0 failed' 'status 0')" \
  "$(told 0 'fn low::a: proved' "$ok$behind" '4 passed, 0 failed')"
demand "a proved crate has its time" \
  "$(printf '%s\n' "rt ci in $PWD" 'rt: low proved (after 0 s)' 'rt: high NOT PROVED' '1 passed, 1 failed' 'status 1')" \
  "$(told 1 'rt: low proved' 'rt: high NOT PROVED' '1 passed, 1 failed' | sed 's/(after [0-9]* s)/(after 0 s)/')"
demand "rt's status counts" "status 2" "$(told 2 '0 passed, 1 failed' | tail -n 1)"
demand "a bad edit is a failure" \
  "$(printf '%s\n' '4 passed, 0 failed' 'must-fail edits that cannot be applied: 2' 'status 1')" \
  "$(told 0 "$ok, 2 bad$behind" '4 passed, 0 failed' | tail -n 3)"
demand "so it is behind an edit that a limit refused" "status 1" \
  "$(told 0 "$ok, 1 of them only by a limit, 12 bad$behind" '4 passed, 0 failed' | tail -n 1)"
demand "an edit that only a limit refused is none" "status 0" \
  "$(told 0 "$ok, 1 of them only by a limit$behind" '4 passed, 0 failed' | tail -n 1)"

echo "$passed passed, $failed failed"
[[ $failed -eq 0 ]]
