# Completion of `alarms` for bash: commands, options, levels and states; resources, types and qualifiers of alarms, and names of shelves as the server
# has them, where it answers within a second. Source it, or install it as /usr/share/bash-completion/completions/alarms.

# The words of what the server has, one a line: the field of the lines of `alarms COMMAND --plain`, where the fields before it are as given.
_alarms_told() {
  local field=$1 resource=${2-} type=${3-}
  shift 3
  "${COMP_WORDS[0]}" "${_alarms_server[@]}" --timeout 1 "$@" --plain 2>/dev/null |
    awk -F '\t' -v field="$field" -v resource="$resource" -v type="$type" \
      '(resource == "" || $5 == resource) && (type == "" || $6 == type) && !seen[$field]++ { print $field }'
}

# A word without its quotes; nothing in it is expanded or run.
_alarms_bare() {
  xargs printf %s <<<"$1" 2>/dev/null
}

# Those of the lines of standard input that go on from the word, quoted as the shell wants them.
_alarms_offer() {
  local word=$1 bare line
  bare=$(_alarms_bare "$1")
  while IFS= read -r line; do
    # a text with an escape isn't the alarm's own
    [[ -n $line && $line != *\\* && $line == "$bare"* ]] && COMPREPLY+=("$(printf %q "$line")")
  done
  # bash cuts a word at colons and equals signs, so what stands before the last one isn't completed again
  COMPREPLY=("${COMPREPLY[@]#"${word%"${word##*[$_alarms_cuts]}"}"}")
}

# The words of the line as they were typed, though bash cuts them at colons and equals signs; the last is the one that is completed.
_alarms_words() {
  local at glued='' line=${COMP_LINE:0:COMP_POINT} word
  _alarms_typed=()
  for ((at = 0; at <= COMP_CWORD; at++)); do
    word=${COMP_WORDS[at]}
    # a piece with no blank before it belongs to the word before it
    if ((at > 0)) && [[ -n $glued && $line == "$word"* && -n $word ]]; then
      _alarms_typed[${#_alarms_typed[@]} - 1]+=$word
    else
      _alarms_typed+=("$word")
      line=${line#"${line%%[! ]*}"}
    fi
    line=${line#"$word"}
    [[ $line == ' '* || -z $line ]] && glued='' || glued=1
  done
}

_alarms_values() {
  local levels='critical major minor warning indeterminate' states='none ack closed shelved un-shelved'
  case $1 in
    -s | --severity) echo $levels critical+ major+ minor+ warning+ ;;
    --is | --below | --above) echo $levels ;;
    --state) echo $states ;;
    --colour | --color) echo auto always never ;;
    --before | --after) echo SHELVES ;;
    --ca) echo FILES ;;
    --url | --operator | --timeout | -r | --resource | -t | --type | -x | --text | -n | --number | --interval | --from | --exec | --exec-timeout | \
      --older-than | --user | --description | --qualifier) echo NOTHING ;;
  esac
}

_alarms_options() {
  local all='--help --url --operator --ca --timeout --colour' filters='--severity --resource --type --text'
  case $1 in
    list) echo $all $filters --cleared --not-cleared --state --shelved --number --json --plain ;;
    show | summary) echo $all --json ;;
    shelves) echo $all --json --plain ;;
    ack | close | unack) echo $all --text ;;
    report) echo $all --qualifier ;;
    shelve) echo $all --resource --type --all --description --replace --first --before --after ;;
    purge) echo $all --cleared --not-cleared --older-than --is --below --above --state --user --shelved --all ;;
    watch) echo $all $filters --json --exec --exec-timeout --from --once --number --interval ;;
    *) echo $all ;;
  esac
}

# The next of the words that a command has without options.
_alarms_operand() {
  local command=$1 count=$2 word=$3
  shift 3
  case $command:$count in
    show:0) _alarms_offer "$word" < <(_alarms_told 5 '' '' list; _alarms_told 5 '' '' list --shelved) ;;
    ack:0 | close:0 | unack:0 | report:0) _alarms_offer "$word" < <(_alarms_told 5 '' '' list) ;;
    show:1 | ack:1 | close:1 | unack:1 | report:1) _alarms_offer "$word" < <(_alarms_told 6 "$1" '' list) ;;
    show:2 | ack:2 | close:2 | unack:2) _alarms_offer "$word" < <(_alarms_told 7 "$1" "$2" list) ;;
    report:2) _alarms_offer "$word" < <(printf '%s\n' critical major minor warning indeterminate cleared) ;;
    unshelve:0 | shelve:0) _alarms_offer "$word" < <(_alarms_told 1 '' '' shelves) ;;
  esac
}

_alarms() {
  local _alarms_typed _alarms_server=() _alarms_cuts=${COMP_WORDBREAKS//[!:=]/} at command='' operands=() word before values
  COMPREPLY=()
  _alarms_words
  word=${_alarms_typed[-1]}
  before=${_alarms_typed[${#_alarms_typed[@]} - 2]}
  for ((at = 1; at < ${#_alarms_typed[@]} - 1; at++)); do
    values=$(_alarms_values "${_alarms_typed[at]}")
    case ${_alarms_typed[at]} in
      --url | --ca) _alarms_server+=("${_alarms_typed[at]}" "${_alarms_typed[at + 1]}"); ((at++)) ;;
      -*) [ -z "$values" ] || ((at++)) ;;
      *) if [ -z "$command" ]; then command=${_alarms_typed[at]}; else operands+=("$(_alarms_bare "${_alarms_typed[at]}")"); fi ;;
    esac
  done
  values=$(_alarms_values "$before")
  case $values in
    SHELVES) _alarms_offer "$word" < <(_alarms_told 1 '' '' shelves) ;;
    FILES) mapfile -t COMPREPLY < <(compgen -f -- "$word") ;;
    NOTHING) ;;
    ?*) mapfile -t COMPREPLY < <(compgen -W "$values" -- "$word") ;;
    *)
      if [[ $word == -* ]]; then
        mapfile -t COMPREPLY < <(compgen -W "$(_alarms_options "$command")" -- "$word")
      elif [ -z "$command" ]; then
        mapfile -t COMPREPLY < <(compgen -W 'list show summary shelves ack close unack report shelve unshelve purge watch' -- "$word")
      else
        _alarms_operand "$command" "${#operands[@]}" "$word" "${operands[@]}"
      fi
      ;;
  esac
}

complete -F _alarms alarms
