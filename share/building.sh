# Builds the program of this repository, tells how far it is, and keeps its log. Read after front.sh.
#   top       the top of the repository
#   program   the built program
# shellcheck shell=bash disable=SC2154

# As they were seen; README.md and docs/install.md say the same.
FIRST_BUILD_TAKES="35 to 50 minutes on four processors"
OLDER_BUILD_TAKES="more than an hour on four processors"

# The kit that the proofs were made with, as rt version prints it; README.md and docs/install.md name it too.
KIT="rattle-kit-13f logic dac8208d650f15bf"
# An older kit, by which the program was built too.
OLDER_KIT="rattle-kit-13b logic dac8208d650f15bf"

out="$top/crates/ms_cli/out"
log="$out/build.log"
# Names the folder outside the repository that the build under way works in.
room_file="$out/build.room"

# The crates that the program stands on, each after those that it uses itself, and the program's own last.
crates_of_program() {
  awk -F: '
    { sub(/#.*/, "") }
    /:/ { split($1, head, " "); uses[head[1]] = $2 }
    function visit(name,   words, n, i) {
      if (name in seen) return
      seen[name] = 1
      n = split(uses[name], words, " ")
      for (i = 1; i <= n; i++) if (words[i] in uses) visit(words[i])
      print name
    }
    END { visit("ms_cli") }' "$top/crates.txt"
}

# The files and folders of a crate that its proofs are about.
sources_of() {
  local part
  for part in src specs proofs; do
    [ ! -d "$top/crates/$1/$part" ] || printf '%s\n' "$top/crates/$1/$part"
  done
}

# Nothing that the program is made of is newer than the program, whose time is that at which its build began.
is_current() {
  [ -x "$program" ] || return 1
  local sources name
  mapfile -t sources < <(for name in $(crates_of_program); do sources_of "$name"; done)
  [ -z "$(find "$top/crates.txt" "${sources[@]}" -newer "$program" -print -quit)" ]
}

build() {
  if ! command -v rt >/dev/null; then
    say "the program is not built, and the Rattle kit that builds it is missing (no command rt on the path): see Install in $top/README.md"
    exit "$NO_RUN"
  fi
  if ! mkdir -p "$out" || ! : >>"$log"; then
    say "the program is not built, and $out can't be written"
    exit "$NO_RUN"
  fi
  wait_for_turn
  is_current || build_in_turn
  exec 9>&-
}

# Two builds at once would do the same work twice. Without flock rt itself makes the second wait, crate by crate.
# rt holds the turn too: where this script alone is killed, the next run lets it end and then takes what it kept.
wait_for_turn() {
  exec 9>"$out/build.lock"
  command -v flock >/dev/null || return 0
  flock -n 9 && return
  say "another build of the program is under way; waiting for it"
  flock 9
}

build_in_turn() {
  mapfile -t crates < <(crates_of_program)
  ended=0 place='' room='' builder='' began=$SECONDS
  tell_what_comes
  : >"$log"
  for signal in INT TERM HUP; do
    # shellcheck disable=SC2064
    trap "interrupt $signal" "$signal"
  done
  if ! lay_out 2>>"$log"; then
    tell_failure "the crates were not copied to ${room:-a folder for temporary files}"
  fi
  (cd "$room" && exec rt ci) </dev/null >>"$log" 2>&1 &
  builder=$!
  follow
  wait "$builder"
  local status=$?
  builder=
  clear_line
  [ "$status" = 0 ] || tell_failure "rt ended with status $status"
  put_program 2>>"$log" || tell_failure "what rt built can't be put to $program"
  remove_room
  trap - INT TERM HUP
  say "built in $(time_taken): $program"
}

tell_what_comes() {
  local what="not built yet" takes=$FIRST_BUILD_TAKES kit
  [ ! -e "$program" ] || what="older than its sources"
  kit=$(rt version </dev/null 2>/dev/null)
  [ "$kit" != "$OLDER_KIT" ] || takes=$OLDER_BUILD_TAKES
  [ "$kit" = "$KIT" ] || [ "$kit" = "$OLDER_KIT" ] || say "the kit here is ${kit:-of no known line}; the proofs were made with $KIT, and another may refuse them"
  find_keeping
  say "the program is $what: proving ${#crates[@]} crates, then compiling it"
  say "from nothing this takes $takes; $keeping"
}

# rt of some kits keeps each crate that it proved in a folder beside the kit, where whoever runs it may write, and can be
# told not to take it from there by --anew.
find_keeping() {
  local kit store
  if ! rt help </dev/null 2>&1 | grep -q -e --anew; then
    keeping="rt of this kit keeps nothing from one run to the next, so a build that ends early begins anew"
    return
  fi
  kit=$(dirname "$(rt doc </dev/null 2>/dev/null)")
  store=$(dirname "$kit")/rattle-kept
  keeping="the crates that were proved are kept, and the next run goes on from there"
  if [ -e "$store" ]; then
    [ -d "$store" ] && [ -O "$store" ] && return
  elif [ -w "$(dirname "$store")" ]; then
    return
  fi
  keeping="$store is not yours to write, so nothing is kept, and the next run begins anew"
}

# A repository of the program's crates alone, without their must-fail edits. It lies outside this one, in which rt ci
# allows no second crates.txt, and has an empty .git, the sign of a repository's top.
lay_out() {
  local name
  if command -v flock >/dev/null; then remove_room; fi
  room=$(mktemp -d "${TMPDIR:-/var/tmp}/ms_cli-build.XXXXXX") || return
  printf '%s\n' "$room" >"$room_file" && touch "$room/begun" && mkdir "$room/.git" || return
  cp "$top/HANDLES" "$room" && lines_of_program >"$room/crates.txt" || return
  for name in "${crates[@]}"; do
    mkdir -p "$room/crates/$name" || return
    find "$top/crates/$name" -mindepth 1 -maxdepth 1 ! -name out ! -name must-fail \
      -exec cp -R -t "$room/crates/$name" {} + || return
  done
}

lines_of_program() {
  printf '%s\n' "${crates[@]}" | awk -F: '
    NR == FNR { wanted[$1]; next }
    { sub(/#.*/, "") }
    split($1, head, " ") && head[1] in wanted' - "$top/crates.txt"
}

put_program() {
  mkdir -p "$out" && cp "$room/crates/ms_cli/out/ms_cli" "$program.new" &&
    touch -r "$room/begun" "$program.new" && mv -f "$program.new" "$program"
}

# The folder of this build, or that of one before it that was killed.
remove_room() {
  [ "$room" ] || room=$(cat "$room_file" 2>/dev/null)
  case ${room##*/} in
    # What rt started may still write for a moment after it was killed.
    ms_cli-build.*) rm -rf "$room" 2>/dev/null || { sleep 1 && rm -rf "$room"; } ;;
  esac
  rm -f "$room_file"
  room=
}

# Reads the log as it grows, until the build ends.
follow() {
  local line rest='' is_alive=yes
  exec 8<"$log"
  while [ "$is_alive" ]; do
    kill -0 "$builder" 2>/dev/null || is_alive=
    while IFS= read -r line <&8; do
      note "$rest$line"
      rest=
    done
    rest+=$line
    [ ! -t 2 ] || show_place
    [ ! "$is_alive" ] || sleep 1
  done
  exec 8<&-
}

# Takes from a line of the log which crate is done. They are proved side by side, and so end in no order of ours.
note() {
  local name=${1#rt: }
  case $1 in
    "rt: "*": another run on this machine "*)
      clear_line
      say "$name"
      ;;
    "rt: "*" proved") come_to "${name% proved}" proved ;;
    "rt: "*" is kept: "*) come_to "${name%% is kept: *}" kept ;;
  esac
}

come_to() {
  local name
  for name in "${crates[@]}"; do
    if [ "$name" = "$1" ]; then
      ended=$((ended + 1))
      place="crate $ended of ${#crates[@]} $2: $1"
      [ -t 2 ] || say "$place, $(time_taken) so far"
    fi
  done
}

# One line that is written anew, cut where the terminal ends.
show_place() {
  local what width
  what="ms_cli: ${place:-none of ${#crates[@]} crates proved yet}, $(time_taken) so far"
  width=$(stty size <&2 2>/dev/null | cut -d ' ' -f 2)
  [ "${width:-0}" -gt 0 ] || width=80
  clear_line
  printf '%s' "${what:0:width - 1}" >&2
}

clear_line() {
  [ ! -t 2 ] || printf '\r\033[K' >&2
}

time_taken() {
  local passed=$((SECONDS - began))
  if [ "$passed" -lt 120 ]; then
    echo "$passed s"
  else
    echo "$((passed / 60)) min"
  fi
}

interrupt() {
  trap '' INT TERM HUP
  if [ "$builder" ]; then
    kill -TERM "$builder" 2>/dev/null
    wait "$builder"
  fi
  remove_room
  clear_line
  say "the build was interrupted; $keeping"
  trap - "$1"
  kill -s "$1" $$
}

# The lines of the log that say why, the first ten of them.
tell_failure() {
  trap '' INT TERM HUP
  remove_room
  say "the program was not built: $1; the first lines that tell of a fault:"
  local faults
  faults=$(grep -E 'error(\[|:)|: not proved|: no proof|^rt: |Killed' "$log" | grep -vE '^rt: (note: |[^ ]+ (proved$|is kept: )|[^ ]+: another run )' | head -n 10)
  printf '%s\n' "${faults:-$(tail -n 10 "$log")}" >&2
  say "the whole log: $log; $keeping"
  exit "$NO_RUN"
}
