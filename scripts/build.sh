# For ./book, ./rehearse, the gate, the tests and bench/run: proves and builds what they need. Says on standard error what it is doing meanwhile,
# and does nothing where nothing has changed since it was last done. Sourced by bash, in the tree's folder.

command -v rt >/dev/null || { echo "the Rattle kit is needed: there is no command rt" >&2; exit 1; }

# The kit's folder.
kit=$(dirname "$(dirname "$(readlink -f "$(command -v rt)")")")

# crates_below NAME: this crate and all it stands on, as crates.txt says, a line each, the lowest first.
crates_below() {
  awk -v name="$1" '
    function visit(crate,    i, n, below) {
      if (seen[crate]++ || !(crate in stands_on)) return
      n = split(stands_on[crate], below, " ")
      for (i = 1; i <= n; i++) visit(below[i])
      print crate
    }
    { sub(/#.*/, "") }
    /:/ { crate = $1; sub(/:.*/, "", crate); sub(/^[^:]*:/, ""); stands_on[crate] = $0 }
    END { visit(name) }' crates.txt
}

# content_of NAME [PATH..]: one number that tells whether anything has changed of what a build is made from: the kit, the crate and
# those below it, and the files at the paths.
content_of() {
  local name=$1
  shift
  {
    cat "$kit/KIT-ID"
    uname -m
    cat crates.txt
    # shellcheck disable=SC2046
    find $(crates_below "$name" | sed 's,^,crates/,') "$@" \( -name must-fail -o -name out \) -prune -o -type f -print0 | LC_ALL=C sort -z | xargs -0 sha256sum
  } | sha256sum
}

# is_built FILE CONTENT: whether the file is as it was when it was last made, and was made from that content. mark_built notes both.
is_built() { [ -f "$1" ] && [ "$(cat "$1.content" 2>/dev/null)" = "$(made_from "$@")" ]; }
mark_built() { made_from "$@" >"$1.content"; }
made_from() { echo "$(sha256sum <"$1") from $2"; }

# say_progress LOG: how far rt is, by what it has said: each crate that is proved has a last line, and each function that is proved a line with its
# crate's name.
said='' said_at=0
say_progress() {
  local now words
  now=$(sed -nE 's/^[a-z]+ ([a-z_0-9]+)::[^ ]*: (not )?proved.*/\1/p' "$1" | tail -n 1)
  words="crates proved: $(grep -c '^logic=proved' "$1" || true)${now:+, the last function is of $now}"
  if [ -t 2 ]; then
    printf '\r\033[K%s, %s s so far' "$words" "$SECONDS" >&2
  elif [ "$words" != "$said" ] || [ $((SECONDS - said_at)) -ge 30 ]; then
    printf '%s, %s s so far\n' "$words" "$SECONDS" >&2
    said=$words said_at=$SECONDS
  fi
}

# watched COMMAND..: runs a command that proves crates, and says meanwhile how far it is. Where it fails, what it said is printed, and the
# script ends with status 1. Interrupted, it stops the provers as well.
watched() {
  local log job
  log=$(mktemp)
  SECONDS=0
  set -m
  "$@" </dev/null >"$log" 2>&1 &
  job=$!
  set +m
  trap 'kill -- -$job 2>/dev/null; rm -f "$log"; exit 130' INT TERM
  while kill -0 "$job" 2>/dev/null; do
    sleep 0.5
    [ "$SECONDS" -lt 2 ] || say_progress "$log"
  done
  trap - INT TERM
  [ ! -t 2 ] || [ "$SECONDS" -lt 2 ] || printf '\r\033[K' >&2
  wait "$job" || { cat "$log" >&2; rm -f "$log"; exit 1; }
  rm -f "$log"
}

# need_program NAME: target/bin/NAME is proved and built, and target/obj/NAME.o is the same program as one object.
need_program() {
  local content
  content=$(content_of "$1")
  is_built "target/bin/$1" "$content" && [ -f "target/obj/$1.o" ] && return
  watched prove_program "$1"
  mark_built "target/bin/$1" "$content"
}
# (rt runs what it has proved, once, on the crate's own input; with nothing changed it compiles nothing)
prove_program() {
  local out=crates/$1/out
  [ -f "$out/$1.o" ] || rm -f "$out/$1.stamp"
  (cd "crates/$1" && rt run <stdin) && put_program "$1" "$out/$1" "$out/$1.o"
}
# put_program NAME PROGRAM OBJECT
put_program() { mkdir -p target/bin target/obj && cp "$2" "target/bin/$1" && cp "$3" "target/obj/$1.o"; }

# need_library NAME: target/staticlib/libNAME.a, the archive of crate NAME_c, is proved and built.
need_library() {
  local content file=target/staticlib/lib$1.a
  content=$(content_of "$1_c")
  is_built "$file" "$content" && return
  watched prove_library "$1"
  mark_built "$file" "$content"
}
prove_library() { (cd "crates/$1_c" && rt lib) && mkdir -p target/staticlib && cp "crates/$1_c/out/lib$1_c.a" "target/staticlib/lib$1.a"; }

# take_from_gate PROGRAM LIBRARY: the same two out of what `rt ci` has proved, for .ci/run right after it has passed: what is left to do is one
# more check of the two crates themselves. Where crates/*/out has work of other commands too, it does nothing: they go on with that.
take_from_gate() {
  local content program=crates/$1/out/$1 object=$PWD/crates/$1/out/$1.o file=$PWD/target/staticlib/lib$2.a
  content=$(content_of "$2_c")
  if ! is_built "$file" "$content"; then
    scripts/over-ci "$2_c" "$file" || return "$(($? == 3 ? 0 : 1))"
    mark_built "$file" "$content"
  fi
  content=$(content_of "$1")
  if ! is_built "target/bin/$1" "$content" || [ ! -f "target/obj/$1.o" ]; then
    [ -f "$object" ] || scripts/over-ci "$1" "$object" || return "$(($? == 3 ? 0 : 1))"
    put_program "$1" "$program" "$object"
    mark_built "target/bin/$1" "$content"
  fi
}
