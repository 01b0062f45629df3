#!/usr/bin/env bash
# Runs the program with the words given, and ends with its status. Where the program is missing, or wasn't built of the sources as
# they are, it is proved and built first: how far that is stands on the error output, and status 70 says that it failed. Of runs at
# once one builds it, and the others wait. With UC_BUILD=unproved it is another program, of the same sources and without proofs.
# What the program doesn't tell is told here: the page of all words, a word that is wrong, and before a search a certificate that can't
# be written.
set -eu
# A file past the limit on sizes is a fault of the write, after which the program removes its draft, and no signal that ends it.
trap '' XFSZ
top=$(dirname -- "$(readlink -f -- "$0")")
proved_program=$top/crates/uc/out/uc unproved_program=$top/out/unproved/uc
program=$proved_program
child='' work='' told='' crates=() uses=() began=() took=() proved=0
. "$top/launch/words.sh"
. "$top/launch/record.sh"

# What the proof of each crate took when it was measured, in seconds of one processor.
weights='uc_model 96 dual_model 66 outside 78 outside_system 96 decimal_json 144 instance 216 table_list 90 cert_text 510
  report 144 cost_curves 78 start_costs 30 period_term 66 ramp_duals 42 system_value 30 interval_graph 36
  step_functions 102 pivot_run 150 fractions 18 dispatch_program 18 dispatch_rules 36 dispatch_prices 72
  dispatch_table 216 dispatch_schedule 96 pivot_dispatch 84 found_schedule 24 hull_function 54 unit_path 90
  unit_runs 30 unit_exact 138 dispatch_repair 276 dual_value 126 quick_value 282 opening_tables 72 decided_nodes 66
  uplift 126 bundle 162 prices 390 repair_state 258 schedule_repair 342 roll 132 branch_tree 90 incumbent 42
  steal_pool 84 search_machine 42 pivot_closing 18 claims 48 book 192 decommitment 294 opening 168 search_desk 138
  node_visits 132 closing_pass 150 tree_search 390 search_answers 78 workers 150 schedule_check 138 state_walk 132
  leaf_values 126 cert_check 120 demo_gen 36 command_line 168 command_runs 54 uc_check 60 uc_uplift 48 uc_cli 162
  uc 180'

say() { printf 'uc: %s\n' "$*" >&2; }

# Runs that look at the program share the lock, with -s; one that builds it has it alone, with -x.
take_lock() {
  flock -w 1 "$1" "$lock" && return
  say "waiting for another run, which builds the program"
  flock "$1" "$lock"
}

# The crates that the program stands on, in the order of crates.txt, and the program, each with the libraries that it uses.
needed() {
  awk -F: 'function need(name, i, below) { if (!is_needed[name]++) for (i = split(uses[name], below, " "); i; i--) need(below[i]) }
    { sub(/#.*/, "") } split($1, words, " ") { rows[NR] = words[1]; uses[words[1]] = $2 }
    END { need("uc"); for (i = 1; i <= NR; i++) if (rows[i] in is_needed && rows[i] != "uc") print rows[i], uses[rows[i]]
      print "uc", uses["uc"] }' "$top/crates.txt"
}

# A copy of these crates alone, without their must-fail edits, where rt's whole run proves them: those with the longest chain of others
# behind them first, and one that nothing else can be proved beside by several processors.
copy() {
  local name
  mkdir -p "$work/uc/.git"
  cp "$top/HANDLES" "$work/uc"
  for name in "${crates[@]}"; do
    mkdir -p "$work/uc/crates/$name"
    find "$top/crates/$name" -mindepth 1 -maxdepth 1 ! -name out ! -name must-fail -exec cp -R -t "$work/uc/crates/$name" {} +
    grep -E "^$name[ :]" "$top/crates.txt"
  done >"$work/uc/crates.txt"
}

# A line for each crate: its name, the seconds since its proof began, those that it took, and the libraries that it uses.
states() {
  local i age
  for ((i = 0; i < ${#crates[@]}; i++)); do
    age=0
    if [ -n "${began[i]-}" ]; then age=$((SECONDS - began[i])); fi
    echo "${crates[i]} $age ${took[i]:--} ${uses[i]}"
  done
}

# The minutes until all is proved, by what proofs took when they were measured and how those of this run compare: all that is left,
# shared by the processors, or the longest chain of it if that is more.
minutes_left() {
  states | awk -v weights="$weights" -v processors="$(nproc)" '
    function rest(name, left) {
      if (took[name] != "-") return 0
      left = weight[name] * pace - age[name]
      return left > 5 ? left : 5
    }
    function chain(name, i, below, one, most) {
      if (name in chains) return chains[name]
      for (i = split(uses[name], below, " "); i; i--) { one = chain(below[i]); if (one > most) most = one }
      return chains[name] = most + rest(name)
    }
    BEGIN { for (i = split(weights, words, " "); i; i -= 2) weight[words[i - 1]] = words[i] }
    { age[$1] = $2; took[$1] = $3; names[NR] = $1; uses[$1] = ""; for (i = 4; i <= NF; i++) uses[$1] = uses[$1] " " $i }
    !($1 in weight) { weight[$1] = 60 }
    $3 > 0 { spent += $3; expected += weight[$1] }
    END {
      pace = expected ? spent / expected : 1
      for (i = 1; i <= NR; i++) { total += rest(names[i]); if (chain(names[i]) > longest) longest = chain(names[i]) }
      shared = total / processors
      print int((shared > longest ? shared : longest) / 60 + 0.99)
    }'
}

# A crate's folder for what is made is there once its proof begins, and the log names each crate that is done or was proved before.
show() {
  local i ended count=0 line
  ended=$(sed -nE 's/^== ([a-z_]+)$/ \1 /p; s/^([a-z_]*: )?([a-z_]+) is kept: .*/ \2 /p' "$work/log")
  for ((i = 0; i < ${#crates[@]}; i++)); do
    if [ -d "$work/uc/crates/${crates[i]}/out" ]; then began[i]=${began[i]-$SECONDS}; fi
    if [[ $ended == *" ${crates[i]} "* ]]; then
      took[i]=${took[i]-$((SECONDS - ${began[i]-SECONDS}))}
      count=$((count + 1))
    fi
  done
  proved=$count
  line="$proved of ${#crates[@]} proved, some $(minutes_left) min left"
  if [ "$line" != "$told" ]; then told=$line && say "$line"; fi
}

prove() {
  (cd "$work/uc" && exec {lock}<&- && exec rt ci) >>"$work/log" 2>&1 </dev/null &
  child=$!
  echo "$child" >"$work/child"
  while kill -0 "$child" 2>/dev/null; do
    show
    sleep 1
  done
  wait "$child"
}

# The child has a group of its own, as the compilers that it runs have to end with it.
compile() {
  mkdir "$work/made"
  (exec {lock}<&- && exec setsid python3 "$top/launch/unproved.py" "$work/made" "$work/uc") >>"$work/log" 2>&1 </dev/null &
  child=$!
  echo "$child" >"$work/child"
  while kill -0 "$child" 2>/dev/null; do
    sleep 1
    if ((SECONDS % 60 == 0)); then say "compiling for $((SECONDS / 60)) min"; fi
  done
  wait "$child"
}

# What a build leaves that was stopped.
leave() {
  if [ -n "$child" ]; then kill -- "-$child" 2>/dev/null || kill "$child" 2>/dev/null || true; fi
  rm -rf -- "$work"
  if [ "$program" = "$proved_program" ]; then
    say "stopped, with $proved of ${#crates[@]} proved; the next run begins a build anew, and where rt keeps proofs it takes these from there"
  else
    say "stopped; the next run compiles anew"
  fi
  if [ -x "$program" ]; then say "the program of the sources before stays at $program"; fi
}

fail() {
  trap - EXIT
  tail -n 15 -- "$work/log" >&2
  rm -rf -- "$work/uc" "$work/made" "$work/owner" "$work/child"
  say "the program could not be built; the log is $work/log"
  exit 70
}

# Builds that were killed could tell nothing: their folders stand yet, and what they ran may run yet.
tell_of_killed() {
  local it owner='' run=''
  for it in "${TMPDIR:-/tmp}"/uc-build.*; do
    if [ -O "$it" ] && read -r owner 2>/dev/null <"$it/owner" && ! kill -0 "$owner" 2>/dev/null; then
      say "a build that was killed left the folder $it, which may be deleted"
      if read -r run 2>/dev/null <"$it/child" && kill -0 "$run" 2>/dev/null; then say "what it ran, process $run, runs yet"; fi
    fi
  done
}

# Proves and builds the program, in a copy of its crates.
make_proved() {
  local name below
  while read -r name below; do crates+=("$name") uses+=("$below"); done < <(needed)
  say "proving and building the program; later runs start at once"
  say "UC_BUILD=unproved ./uc .. gives a first answer in minutes, by a program without proofs"
  copy
  note_edits
  prove || fail
  made=$work/uc/crates/uc/out/uc
}

make_unproved() {
  say "compiling the program without proofs, which takes some three minutes"
  compile || fail
  note_edits
  made=$work/uc
}

# What was edited while it was read may stand in the program or not, so no sources are those of the program.
note_edits() {
  digest_sources
  if [ "$digest" != "$sources" ]; then sources='edited meanwhile'; fi
}

build() {
  local made sources kit
  tell_of_killed
  work=$(mktemp -d -- "${TMPDIR:-/tmp}/uc-build.XXXXXX") && touch "$work/log" && echo $$ >"$work/owner"
  trap leave EXIT
  trap 'exit 143' INT TERM HUP
  digest_sources
  sources=$digest
  kit=$(rt version 2>/dev/null | head -n 1)
  if [ "$program" = "$proved_program" ]; then make_proved; else make_unproved; fi
  mkdir -p "${program%/*}"
  cp "$made" "$program.new"
  mv -f "$program.new" "$program"
  make_record "$program" "$sources" "${kit:-unknown}"
  trap - EXIT INT TERM HUP
  rm -rf -- "$work"
  say "built in $((SECONDS / 60)) min $((SECONDS % 60)) s"
}

has_tools() { command -v rt >/dev/null && { [ "$program" = "$proved_program" ] || command -v python3 >/dev/null; }; }

# What is missing here that a build takes, with where it comes from.
refuse_without_tools() {
  local kit what="isn't built yet"
  if [ -x "$program" ]; then what="was ${stale%%;*}"; fi
  if ! command -v rt >/dev/null; then
    kit=$(sed -nE 's/^Proved with `([^` ]+).*/\1/p' "$top/docs/PROVED.md" 2>/dev/null) || true
    say "the program $what, and rt, which builds it, isn't on the path"
    say "rt comes with a Rattle kit, an archive of the makers of Rattle${kit:+; this repository is proved with $kit}"
    say "unpack it, and begin anew with PATH=KIT/bin:\$PATH, where KIT is its folder"
  else
    say "the program $what, and python3, which compiles it, isn't on the path"
  fi
  exit 70
}

# The C library reserves 64 MB of addresses for each arena, which threads make. Where addresses are limited some quarter is for arenas.
limit_arenas() {
  local limit
  limit=$(ulimit -v)
  if [ "$limit" != unlimited ] && [ -z "${MALLOC_ARENA_MAX-}" ]; then export MALLOC_ARENA_MAX=$((limit / (4 * 65536) + 1)); fi
}

run() {
  if [ "$program" = "$unproved_program" ]; then say "this program is UNPROVED, compiled without proofs; ./uc without UC_BUILD proves it"; fi
  limit_arenas
  exec "$program" "$@"
}

# Whether a program is here, and of which sources, by which kit and when it was built.
state_of() {
  if is_current "$1"; then
    echo "built of these sources, ${1#"$top/"}"
  else
    echo "$stale"
  fi
  if [ -x "$1" ] && read_record "$1"; then echo "  sources ${record[sources]-}, kit ${record[kit]-}, built ${record[date]-}"; fi
}

tell_version() {
  local commit='' kit='' path
  if [ "$(git -C "$top" rev-parse --show-toplevel 2>/dev/null)" = "$top" ]; then
    commit=$(git -C "$top" log -1 --format='%h of %cs')
    git -C "$top" diff --quiet HEAD || commit+=', edited'
  fi
  if path=$(command -v rt); then kit=$(head -n 1 -- "$(dirname -- "$(readlink -f -- "$path")")/../KIT-ID" 2>/dev/null) || true; fi
  digest_sources
  echo "uc ${commit:-of no commit}"
  echo "sources: $digest"
  echo "program: $(state_of "$proved_program")"
  echo "program without proofs: $(state_of "$unproved_program")"
  echo "kit: ${kit:-none, as rt is not on the path}"
  echo 'certificates: writes version 2, or 3 with --exact-units or --pivot; reads 1, 2 and 3'
}

# The page of all words, and what each command of view/ says of itself in its second line.
tell_help() {
  local it
  cat "$top/launch/help.txt"
  for it in "$top"/view/uc-*; do
    if [ -f "$it" ]; then printf '  %-17s  %s\n' "view/${it##*/}" "$(sed -nE '2s/^"""([^;]*)[;.].*/\1/p' "$it")"; fi
  done
}

asks_for_help() {
  local word
  [ "${1-}" != help ] || return 0
  for word in "$@"; do
    case $word in
      --) return 1 ;;
      --help | -h) return 0 ;;
    esac
  done
  return 1
}

# Ends where the words are wrong, or the certificate can't be written, with the program's own text below what is wrong.
refuse_words() {
  local fault file certificate
  look_at_words "$@"
  if [ -n "$fault" ]; then
    say "$fault; ./uc help tells all words"
    if is_current "$program"; then run "$@"; fi
    cat "$top/launch/usage.txt" >&2
    exit 5
  fi
  if [ -n "$certificate" ] && [ -r "$file" ]; then
    look_at_certificate "$certificate" "$file"
    if [ -n "$fault" ]; then
      say "$fault"
      echo 'write failed: certificate' >&2
      exit 7
    fi
  fi
}

case ${UC_BUILD:-proved} in
  proved) ;;
  unproved) program=$unproved_program ;;
  *)
    say "UC_BUILD is \"$UC_BUILD\", and takes proved or unproved"
    exit 5
    ;;
esac
if asks_for_help "$@"; then
  tell_help
  exit
fi
case ${1-} in version | --version | -V)
  tell_version
  exit
  ;;
esac
has_tools || is_current "$program" || refuse_without_tools
refuse_words "$@"
# Each program has a lock of its own.
locked=$top
if [ "$program" = "$unproved_program" ]; then
  locked=${unproved_program%/*}
  mkdir -p "$locked"
fi
exec {lock}<"$locked"
take_lock -s
if ! is_current "$program"; then
  take_lock -x
  is_current "$program" || build
fi
exec {lock}<&-
run "$@"
