# What ./graph_info and ./graph_tools have in common. A script that reads this file gives `name`, the program's name, `here`, the folder of
# the repository, `statuses`, those from 2 on that it explains, and the functions `help`, `meaning`, which says what a status means, and
# `reads_input`, which says whether words are those of a command that reads standard input; then it calls `program_main`.
folder="$here/crates/$name"
program="$folder/out/$name"
built="$folder/out/built"
kit="rattle-kit-13f logic dac8208d650f15bf"
# An unproved run may take so many seconds besides compiling, and rt gives no more bytes to it.
seconds=600
most_input=67108864
# After so many seconds, which is longer than it takes on a quiet machine, and so many more, an unproved run says that it still goes on.
patience=${PATIENCE:-240}

say() { echo "$name: $*" >&2; }

# The crates that the program is made of: its own line of crates.txt names some of them, and their lines the others.
crates() {
  local needed=" $name " grown=" " one rest each
  while [ "$grown" != "$needed" ]; do
    grown=$needed
    while IFS=: read -r one rest; do
      case "$needed" in *" $one "*) ;; *) continue ;; esac
      for each in $rest; do
        case "$needed" in *" $each "*) ;; *) needed="$needed$each " ;; esac
      done
    done < "$here/crates.txt"
  done
  while IFS=: read -r one rest; do
    case "$needed" in *" $one "*) echo "$one" ;; esac
  done < "$here/crates.txt"
}

# Why the program, if one stands there, isn't to be run; nothing where it is. A proof that found nothing to do leaves the program as it was,
# and the file "built" has the time at which it began.
staleness() {
  local than=$program folders=() one part
  if ! [ -x "$program" ]; then
    echo "the program isn't proved and built yet"
    return
  fi
  [ "$built" -nt "$program" ] && than=$built
  for one in $(crates); do
    for part in src specs proofs; do
      [ -d "$here/crates/$one/$part" ] && folders+=("$here/crates/$one/$part")
    done
  done
  if [ -n "$(find "${folders[@]}" "$here/crates.txt" -type f -newer "$than" -print -quit)" ]; then
    echo "a source is newer than the program"
  fi
}

# The toolchain's command has to be there, and Python, in which it is written.
need_toolchain() {
  if ! command -v rt >/dev/null; then
    say "the toolchain's command rt isn't here; wanted is $kit (rt version prints that), with its folder bin in PATH, as in PATH=/opt/rattle/bin:\$PATH"
    exit 70
  fi
  if ! command -v python3 >/dev/null; then
    say "the toolchain needs Python 3.8 or newer: apt-get install python3"
    exit 70
  fi
}

# Says again and again that a run goes on, as one on a busy machine does for long. It waits without a process of its own, which would be left.
say_again() {
  local since=$SECONDS
  while true; do
    read -r -t "$patience" <> <(:)
    # Above 128 is the end of the time; and where the script was killed nothing goes on.
    if [ $? -le 128 ] || ! kill -0 $$ 2>/dev/null; then return; fi
    say "still compiling or running, after $(((SECONDS - since + 30) / 60)) minutes"
  done
}

# A program in Python that becomes rt with the words given, in a group of its own, which is ended whole; and rt ends where the script is killed.
APART='
import ctypes, os, signal, sys
os.setsid()
ctypes.CDLL(None).prctl(1, signal.SIGTERM)
os.execvp("rt", ["rt", *sys.argv[1:]])
'

# Runs the sources with the words given, as the program would run: its output, and its status. $room is a folder for files.
try() {
  local ran why it
  : > "$room/input"
  if reads_input "$@"; then
    cat > "$room/input" 2>/dev/null || return 4
    if [ "$(stat -c %s "$room/input")" -gt $most_input ]; then return 9; fi
  fi
  say_again &
  teller=$!
  disown "$teller"
  for it in INT TERM HUP; do trap "stopped $it" "$it"; done
  (cd "$folder" && TMPDIR=$room exec python3 -c "$APART" try --seconds $seconds -- "$@" < "$room/input") > "$room/output" 2> "$room/said" &
  runner=$!
  wait "$runner"
  runner=
  trap - INT TERM HUP
  kill "$teller"
  teller=
  ran=$(sed -n 's/^run=ended status=\([0-9]*\) .*/\1/p' "$room/said" | tail -n 1)
  why=$(sed -n 's/^checked: no-answer: //p' "$room/said")
  if [ -n "$why" ]; then
    say "an unproved run gives no answer here: $why; ./$name --prove builds the program, which has no such limit"
    return 70
  fi
  if [ -z "$ran" ]; then
    say "the unproved run failed:"
    tail -n 20 "$room/said" | cut -c 1-300 >&2
    return 70
  fi
  cat "$room/output" 2>/dev/null || return 5
  return "$ran"
}

# Ends what goes on of an unproved run, and removes its files. A process beside it that is killed as it begins leaves by this, too.
leave() {
  if [ "$BASHPID" -ne $$ ]; then return; fi
  [ -n "$teller" ] && kill "$teller"
  if [ -n "$runner" ]; then
    # Until it has a group of its own it is one process.
    kill -- "-$runner" || kill "$runner"
    wait "$runner"
  fi
  rm -rf "$room"
} 2>/dev/null

# Ends by a signal that came while rt ran, as the script would end without rt.
stopped() {
  trap - EXIT "$1"
  leave
  kill -s "$1" $$
}

# Runs the program, or its sources where it isn't built.
run() {
  local why
  why=$(staleness)
  if [ -z "$why" ]; then
    "$program" "$@"
    return
  fi
  need_toolchain
  room=$(mktemp -d)
  teller=
  runner=
  trap leave EXIT
  say "$why: this run compiles the sources, which takes two to three minutes on a quiet machine, and is unproved"
  say "./$name --prove proves and builds it, which takes $(python3 "$here/tools/lib/prove.py" "$name" --estimate) on a quiet machine; a run then takes milliseconds"
  try "$@"
}

# Answers the words of the script itself, or runs the program, and explains its status.
program_main() {
  local status
  case ${1-} in
    --help)
      if [ $# -eq 1 ]; then
        help
        return 0
      fi
      ;;
    --prove)
      need_toolchain
      shift
      exec python3 "$here/tools/lib/prove.py" "$name" "$@"
      ;;
  esac
  run "$@"
  status=$?
  case " $statuses " in *" $status "*) say "status $status: $(meaning $status)" ;; esac
  return $status
}
