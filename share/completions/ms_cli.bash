# Completion of ms_cli for bash: commands, the options of the command before, and files that it reads or writes.
# shellcheck shell=bash

# The words that may stand after a command, or at the front: options end in =, the others stand as they are.
_ms_cli_words() {
  local made="target= name= +"
  case $1 in
    import) echo "precision= string-fields= combine-files" ;;
    -clip | -erase) echo "bbox= $made" ;;
    -dissolve) echo "sum-fields= copy-fields= group-points $made" ;;
    -clean) echo "overlap-rule= gap-fill-area= allow-empty $made" ;;
    -filter-islands) echo "min-area= min-vertices= remove-empty $made" ;;
    -mosaic | -union | -innerlines | -explode | -lines) echo "$made" ;;
    -join) echo "keys= calc= fields= where= prefix= string-fields= force target=" ;;
    -filter) echo "invert remove-empty $made" ;;
    -uniq) echo "max-count= invert $made" ;;
    -sort) echo "ascending descending target=" ;;
    -each | -filter-fields | -rename-fields) echo "target=" ;;
    -split) echo "target= +" ;;
    -merge-layers) echo "force $made" ;;
    -o) echo "format= force target=" ;;
  esac
}

_ms_cli_values() {
  case $1 in
    precision) echo "1 0.1 0.01 0.001 0.0001 0.00001 0.000001 0.0000001 0.00000001 0.000000001" ;;
    overlap-rule) echo "max-area min-area min-id max-id" ;;
    format) echo "geojson topojson csv" ;;
  esac
}

_ms_cli_commands="-clip -erase -dissolve -clean -mosaic -union -innerlines -lines -explode -filter-islands -join
  -filter -each -sort -uniq -filter-fields -rename-fields -split -merge-layers -o"

# Adds the files whose names end as those that ms_cli reads and writes, and folders.
_ms_cli_files() {
  local file
  while IFS= read -r file; do
    case $file in
      *.[jJ][sS][oO][nN] | *.[gG][eE][oO][jJ][sS][oO][nN] | *.[tT][oO][pP][oO][jJ][sS][oO][nN] | *.[cC][sS][vV])
        COMPREPLY+=("$file") ;;
      *) [ ! -d "$file" ] || COMPREPLY+=("$file") ;;
    esac
  done < <(compgen -f -- "$1")
}

# The word at the cursor and the command before it. bash parts words at =, so what it parted is put together.
_ms_cli_place() {
  local at word joined=()
  for ((at = 1; at <= COMP_CWORD; at++)); do
    word=${COMP_WORDS[at]}
    if [ "${#joined[@]}" -gt 0 ] && { [ "$word" = "=" ] || [ "${COMP_WORDS[at - 1]}" = "=" ]; }; then
      joined[${#joined[@]} - 1]+=$word
    else
      joined+=("$word")
    fi
  done
  cur=${joined[${#joined[@]} - 1]-}
  count=${#joined[@]} command=import first=${joined[0]-}
  for word in "${joined[@]:0:count-1}"; do
    case $word in
      -i | -) ;;
      -*) command=$word ;;
    esac
  done
}

_ms_cli_add() {
  local word
  for word in $1; do
    case $word in "$cur"*) COMPREPLY+=("$word") ;; esac
  done
}

_ms_cli() {
  local cur count command first
  COMPREPLY=()
  _ms_cli_place
  if [ "$count" -gt 1 ] && [ "$first" = --help ]; then
    [ "$count" -gt 2 ] || _ms_cli_add "$_ms_cli_commands import synth"
  elif [ "$count" -gt 1 ] && { [ "$first" = synth ] || [ "$first" = --version ]; }; then
    return
  elif [ "${cur#*=}" != "$cur" ]; then
    # Where bash parts words at =, only what stands after it is replaced.
    local name=${cur%%=*} begun=${cur#*=} value before=
    case $COMP_WORDBREAKS in *=*) ;; *) before="$name=" ;; esac
    for value in $(_ms_cli_values "$name"); do
      case $value in "$begun"*) COMPREPLY+=("$before$value") ;; esac
    done
  elif [ "${cur#-}" != "$cur" ]; then
    [ "$count" -gt 1 ] || _ms_cli_add "--help --version -i"
    _ms_cli_add "$_ms_cli_commands"
  else
    [ "$count" -gt 1 ] || _ms_cli_add synth
    _ms_cli_add "$(_ms_cli_words "$command")"
    local words=${#COMPREPLY[@]}
    case $command in
      import | -clip | -erase | -join | -o) _ms_cli_files "$cur" ;;
    esac
    [ "$words" -gt 0 ] || compopt -o filenames 2>/dev/null
  fi
  if [ "${#COMPREPLY[@]}" = 1 ] && [ "${COMPREPLY[0]%=}" != "${COMPREPLY[0]}" ]; then
    compopt -o nospace 2>/dev/null
  fi
}

complete -F _ms_cli ms_cli
