# For host tests in bash: counts what holds and what does not. Sourced, with the repository as the folder.
passed=0
failed=0

# A fact that holds, or the words for it on standard output.
holds() { passed=$((passed + 1)); }
fails() { failed=$((failed + 1)); echo "FAILED $*"; }

# expect WORDS.. -- COMMAND..: the command ends with status 0.
expect() {
  local words=()
  while [ "$1" != -- ]; do words+=("$1"); shift; done
  shift
  if "$@"; then holds; else fails "${words[*]}"; fi
}

# Runs a program whose last line is 'N passed, M failed', shows what it says and adds its counts.
add_counts() {
  local out status
  out=$("$@" 2>&1)
  status=$?
  if [[ ${out##*$'\n'} =~ ^([0-9]+)\ passed,\ ([0-9]+)\ failed$ ]]; then
    passed=$((passed + BASH_REMATCH[1])) failed=$((failed + BASH_REMATCH[2]))
    [ "$status" -eq 0 ] || [ "${BASH_REMATCH[2]}" -gt 0 ] || fails "status $status: $*"
  else
    fails "status $status, and no count at the end: $*"
  fi
  [ -z "$out" ] || printf '%s\n' "$out" | sed 's/^/  /'
}

# The last line, and the status.
finish() {
  echo "$passed passed, $failed failed"
  [ "$failed" -eq 0 ]
  exit
}
