# What the shell tests share; each sources it and hands on its own words: . tests/checks.sh "$@"
# A test may be given a pattern, an extended regular expression: then only the checks whose words it matches are run.
# A check prints 'ok: WORDS' or 'FAILED: WORDS', and `ended` prints the last line, 'N passed, M failed'. The gate (.ci/run) reads these lines.

passed=0
failed=0
pattern=${1:-}

matches() { # words
  [[ -z $pattern || $1 =~ $pattern ]]
}

ok() { # words
  passed=$((passed + 1))
  echo "ok: $1"
}

not_ok() { # words
  failed=$((failed + 1))
  echo "FAILED: $1"
}

check() { # words, command: it must end with status 0
  local words=$1
  shift
  matches "$words" || return 0
  if "$@"; then ok "$words"; else not_ok "$words"; fi
}

check_says() { # words, the exit status that the command must have, words that it must print, command
  local words=$1 status=$2 printed=$3 said ended=0
  shift 3
  matches "$words" || return 0
  said=$("$@" 2>&1) || ended=$?
  if [ "$ended" -eq "$status" ] && grep -qF -- "$printed" <<<"$said"; then
    ok "$words"
  else
    not_ok "$words"
    printf 'exit status %s, not %s with "%s":\n%s\n' "$ended" "$status" "$printed" "$said"
  fi
}

# Adds what another program counted, by its last line '.. N passed, M failed ..'. It names what failed itself.
add() { # words, text
  local last
  last=$(tail -n 1 <<<"$2")
  if [[ $last =~ ([0-9]+)\ passed[,\;]\ ([0-9]+)\ failed ]]; then
    passed=$((passed + BASH_REMATCH[1]))
    failed=$((failed + BASH_REMATCH[2]))
  else
    not_ok "$1: no line 'N passed, M failed' at its end"
  fi
}

ended() {
  if [ $((passed + failed)) -eq 0 ]; then not_ok "no check has words that match '$pattern'"; fi
  echo "$passed passed, $failed failed"
  [ "$failed" -eq 0 ]
}
