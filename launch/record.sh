# What a program was built of. It stands beside the program in PROGRAM.made, a line for each of these words:
#   sources  the digest of the names and contents of the sources
#   program  that of the program
#   kit      the line of `rt version`
#   date     when it was built
#   look     the digest of the sizes and times of the files in PROGRAM.files. Where it is as it was, no content is read
# PROGRAM.files names the sources, their folders and the program, by their paths from the top, each ended by a byte 0.

declare -A record=()
stale='' digest=''
are_sources=(-name '*.rt' -o -name '*.antt' -o -name crates.txt -o -name HANDLES)

# Sets `digest` to that of a file, of the sources, or of what the files of a program's list are.
digest_file() {
  digest=$(sha256sum <"$1")
  digest=${digest%% *}
}
digest_sources() {
  digest=$(cd -- "$top" && find crates.txt HANDLES crates -name out -prune -o \( "${are_sources[@]}" \) -print0 |
    LC_ALL=C sort -z | xargs -0 sha256sum | sha256sum)
  digest=${digest%% *}
}
digest_times() {
  digest=$({ cd -- "$top" && xargs -0 stat -c '%n %s %.9Y %.9Z' <"$1.files"; } 2>/dev/null | sha256sum)
  digest=${digest%% *}
}

# Writes the list of a program. Where it can't be written, as in another's checkout, each start reads all contents.
list_files() {
  local path=${1#"$top/"}
  (cd -- "$top" && find crates.txt HANDLES crates "$path" -name out -prune -o \( -type d -o "${are_sources[@]}" -o -path "$path" \) -print0 \
    >"$1.files.$$" && mv -f -- "$1.files.$$" "$1.files") 2>/dev/null || true
}

read_record() {
  local word rest
  record=()
  [ -r "$1.made" ] || return 1
  while read -r word rest; do
    case $word in sources | program | kit | date | look) record[$word]=$rest ;; esac
  done <"$1.made"
}

write_record() {
  local word lines=''
  for word in sources program kit date look; do lines+="$word ${record[$word]-}"$'\n'; done
  printf %s "$lines" >"$1.made.$$" && mv -f -- "$1.made.$$" "$1.made"
}

# Whether a program is there that `./uc` built of the sources as they are; if not, `stale` says what it is. Times come before contents, so
# that what is edited meanwhile is seen at the next start.
is_current() {
  local seen
  stale='not built'
  [ -x "$1" ] || return 1
  stale='not built by ./uc; the next run builds it anew'
  read_record "$1" || return 1
  digest_times "$1"
  [ "$digest" != "${record[look]-}" ] || return 0
  list_files "$1"
  digest_times "$1"
  seen=$digest
  digest_file "$1"
  [ "$digest" = "${record[program]-}" ] || return 1
  stale='built of other sources; the next run builds it anew'
  digest_sources
  [ "$digest" = "${record[sources]-}" ] || return 1
  record[look]=$seen
  write_record "$1" 2>/dev/null || true
}

# Writes the record of a program that was just built: the digest of its sources, and the kit.
make_record() {
  digest_file "$1"
  record=([sources]=$2 [program]=$digest [kit]=$3 [date]=$(date -u '+%Y-%m-%d %H:%M UTC') [look]=none)
  write_record "$1"
  is_current "$1" || true
}
