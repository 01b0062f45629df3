# The words of a command, as docs/FORMATS.md tells them ("Words"): what is wrong with them, and what keeps their certificate from being
# written. The program refuses the same words, and doesn't say which; and it opens the certificate only once it has searched.

prices='shed=1-1000000 spill-reserve=1-1000000'
search='units=1-1000000 workers=1-64 gap=0-1000000 exact'
# What a command takes: its places, and options with a range of whole numbers, with any text (a bare =), or by themselves; ! has to be given.
declare -A takes=(
  [solve]="FILE cert=! $search exact-units pivot $prices"
  [check]="FILE CERT $prices"
  [uplift]="FILE CERT table=1-1000002 $prices"
  [upgrade]='CERT cert=!'
  [roll]="FILE window=1-168! step=1-168! $search $prices"
  [demo]='SEED=0-4294967295'
)

# Whether a text is a whole number within a range, as 1-64.
is_within() {
  local LC_ALL=C digits=${1#[+-]}
  [[ $1 =~ ^[+-]?[0-9]+$ ]] || return 1
  while [[ $digits == 0?* ]]; do digits=${digits#0}; done
  [[ ${#digits} -le 10 && ($1 != -* || $digits == 0) ]] && ((digits >= ${2%-*} && digits <= ${2#*-}))
}

# Tells what is wrong with the value of an option or a place, if anything is.
refuse_value() {
  local name=$1 value=$2 range=$3
  [ -z "$range" ] || is_within "$value" "$range" || fault="$name wants a whole number from ${range%-*} to ${range#*-}, and \"$value\" is none"
}

# The entry of what the command takes that has this name, in `entry`; nothing where there is none.
find_entry() {
  local it
  entry=''
  for it in ${takes[$command]}; do
    if [ "${it%%[=!]*}" = "$1" ]; then entry=$it; fi
  done
}

# Takes an option and its value, which is `next` where it isn't in the word itself; `is_spent` tells whether it is.
take_option() {
  local word=$1 name=${1#--} next=$2 has_next=$3 entry range value
  name=${name%%=*} is_spent=''
  find_entry "$name"
  range=${entry#*=}
  if [[ $word != --?* || -z $entry || $name == [A-Z]* ]]; then
    fault="$command has no option \"${word%%=*}\""
  elif [ -n "${given[$name]-}" ]; then
    fault="--$name is there twice"
  elif [[ $entry != *=* ]]; then
    if [[ $word == *=* ]]; then fault="--$name takes no value"; fi
  elif [[ $word != *=* && (-z $has_next || $next == -?*) ]]; then
    fault="--$name has no value"
  else
    if [[ $word == *=* ]]; then value=${word#*=}; else value=$next is_spent=yes; fi
    refuse_value "--$name" "$value" "${range%!}"
    if [ "$name" = cert ]; then certificate=$value; fi
  fi
  if [ -z "$fault" ]; then given[$name]=yes; fi
}

# Sets `fault` to what is wrong with what has to be there.
look_for_missing() {
  local it name needed=()
  for it in ${takes[$command]}; do
    name=${it%%[=!]*}
    if [[ $it == [A-Z]* ]]; then
      needed+=("$it")
    elif [[ -z $fault && $it == *! && -z ${given[$name]-} ]]; then
      fault="$command wants --$name"
    fi
  done
  if [ -n "$fault" ]; then return; fi
  if ((${#places[@]} > ${#needed[@]})); then
    fault="\"${places[${#needed[@]}]}\" is a word too many"
  elif ((${#places[@]} < ${#needed[@]})); then
    fault="$command wants ${needed[${#places[@]}]%%=*}"
  elif [[ ${needed[0]} == *=* ]]; then
    refuse_value "${needed[0]%%=*}" "${places[0]}" "${needed[0]#*=}"
  fi
}

# Sets `fault` to what is wrong with the words, or to nothing; `file` to the first file that they name, `certificate` to the one of --cert.
look_at_words() {
  local -A given=()
  local command=${1-} places=() is_spent='' is_behind=''
  fault='' file='' certificate=''
  if [ $# -eq 0 ]; then
    fault='a command is missing'
  elif [ -z "$command" ] || [ -z "${takes[$command]-}" ]; then
    fault="\"$command\" is no command"
  fi
  if [ -n "$fault" ]; then return; fi
  shift
  while [ $# -gt 0 ] && [ -z "$fault" ]; do
    if [ -z "$is_behind" ] && [ "$1" = -- ]; then
      is_behind=yes
    elif [[ -z $is_behind && $1 == -?* ]]; then
      take_option "$1" "${2-}" "${2+yes}"
      if [ -n "$is_spent" ] && [ -z "$fault" ]; then shift; fi
    else
      places+=("$1")
    fi
    shift
  done
  if [ -z "$fault" ]; then look_for_missing; fi
  file=${places[0]-}
}

# Sets `fault` to what keeps the certificate from being written at a path by a run that reads a file, or to nothing.
look_at_certificate() {
  local path=$1 real folder
  fault=''
  real=$(readlink -m -- "$path" 2>/dev/null) || real=$path
  folder=${real%/*} folder=${folder:-/}
  if [ -z "$path" ]; then
    fault='--cert has no name'
  elif [ -d "$real" ] || [[ $path == */ ]]; then
    fault="--cert $path is a folder"
  elif [ -f "$path" ] && [ "$path" -ef "$2" ]; then
    fault="--cert $path is the file that is read"
  elif [ -e "$real" ] && [ ! -w "$real" ]; then
    fault="--cert $path may not be written"
  elif [ -e "$real" ] && [ ! -f "$real" ]; then
    fault=''
  elif [ ! -d "$folder" ]; then
    fault="--cert $path: there is no folder $folder"
  elif [ ! -w "$folder" ] || [ ! -x "$folder" ]; then
    fault="--cert $path: the folder $folder takes no new file"
  fi
}
