# Completion in bash for the programs of Wineravine: arguments, settings with their values, logs, engines.

# files and folders, with what a shell needs before a blank
_wineravine_files() { # the word so far
  mapfile -t COMPREPLY < <(compgen -f -- "$1")
  compopt -o filenames 2>/dev/null
}

# The values of a setting. Where one has no list of them, nothing is offered: neither commands nor
# files could come there.
_wineravine_values() { # the setting, the word so far
  case $1 in
    --Resign | --ShowPonder | --EarlySettings | --ResignWhenGone | --HandleDraws | --ShowSan | --StrengthOptions | --FenceStops | --ResultReasons | --PlainTexts | --PathOptions | --RepeatThinking)
      mapfile -t COMPREPLY < <(compgen -W 'true false' -- "$2") ;;
    --ResignMoves) mapfile -t COMPREPLY < <(compgen -W 3 -- "$2") ;;
    --ResignScore) mapfile -t COMPREPLY < <(compgen -W 600 -- "$2") ;;
    --TimeMargin) mapfile -t COMPREPLY < <(compgen -W 20 -- "$2") ;;
    --LogFile) _wineravine_files "$2" ;;
    --LogDir) mapfile -t COMPREPLY < <(compgen -d -- "$2") && compopt -o filenames 2>/dev/null ;;
  esac
}

_wineravine() {
  local word=${COMP_WORDS[COMP_CWORD]} at=1 setting='' settings
  settings='--Resign --ResignMoves --ResignScore --ShowPonder --LogFile'
  [ "${1##*/}" != wineravine ] ||
    settings="$settings --EarlySettings --ResignWhenGone --HandleDraws --ShowSan --StrengthOptions --FenceStops --ResultReasons --TimeMargin --PlainTexts --PathOptions --RepeatThinking --LogDir --Option --help --version"
  COMPREPLY=()
  # each setting with its value, which bash takes apart at `=`, until the engine comes
  while [ "$at" -lt "$COMP_CWORD" ]; do
    case ${COMP_WORDS[at]} in
      --) at=$((at + 1)) && settings='' && break ;;
      --help | --version) return ;;
      --*) setting=${COMP_WORDS[at]} ;;
      *) break ;;
    esac
    at=$((at + 2))
    [ "${COMP_WORDS[at - 1]}" != = ] || at=$((at + 1))
    # a value may have `=` itself
    while [ "$at" -lt "$COMP_CWORD" ] && [ "${COMP_WORDS[at]}" = = ]; do at=$((at + 2)); done
  done
  if [ "$at" -lt "$COMP_CWORD" ]; then
    _wineravine_files "$word"
  elif [ "$at" -gt "$COMP_CWORD" ]; then
    _wineravine_values "$setting" "${word#=}"
  elif [ "${word:0:1}" = - ]; then
    mapfile -t COMPREPLY < <(compgen -W "$settings" -- "$word")
  else
    mapfile -t COMPREPLY < <(compgen -c -- "$word"; compgen -f -- "$word")
  fi
}

_wineravine_replay() {
  local word=${COMP_WORDS[COMP_CWORD]}
  if [ "$COMP_CWORD" = 1 ]; then
    mapfile -t COMPREPLY < <(compgen -W 'replay check migrate games positions judge drive revive moves drill --help --version' \
      -- "$word")
    return
  fi
  case ${COMP_WORDS[1]} in
    replay | check | migrate | games | positions)
      mapfile -t COMPREPLY < <(compgen -W 'Resign= ResignMoves= ResignScore= ShowPonder= EarlySettings= ResignWhenGone=
        HandleDraws= ShowSan= StrengthOptions= FenceStops= ResultReasons= TimeMargin= PlainTexts= PathOptions=
        RepeatThinking=' -- "$word")
      compopt -o nospace ;;
    judge) mapfile -t COMPREPLY < <(compgen -W 'tap engine' -- "$word") ;;
    revive) mapfile -t COMPREPLY < <(compgen -W '1 2 3 4 5 6 7 8 9' -- "$word") ;;
  esac
}

# LOG ENGINE [ARG..], where a reviver has its LIVES in front
_wineravine_between() {
  local word=${COMP_WORDS[COMP_CWORD]} number=$COMP_CWORD
  if [ "$COMP_CWORD" = 1 ] && [ "${word:0:1}" = - ]; then
    mapfile -t COMPREPLY < <(compgen -W '--help --version' -- "$word")
    return
  fi
  [ "${1##*/}" != reviver ] || number=$((number - 1))
  case $number in
    0) mapfile -t COMPREPLY < <(compgen -W '1 2 3 4 5 6 7 8 9' -- "$word") ;;
    1) mapfile -t COMPREPLY < <(compgen -f -- "$word") ;;
    *) mapfile -t COMPREPLY < <(compgen -c -- "$word"; compgen -f -- "$word") ;;
  esac
}

_wineravine_report() {
  local word=${COMP_WORDS[COMP_CWORD]} before=${COMP_WORDS[COMP_CWORD - 1]}
  COMPREPLY=()
  # what bash takes apart at `=`
  case $word,$before in
    =,*) word='' ;;
    *,=) before=${COMP_WORDS[COMP_CWORD - 2]} ;;
  esac
  # (numbers of pages at once, and differences, have no default to be offered)
  case $before in
    --jobs | --sprt) return ;;
    --alpha | --beta) mapfile -t COMPREPLY < <(compgen -W 0.05 -- "$word") && return ;;
  esac
  [ "$COMP_CWORD" -lt 3 ] || [ "${COMP_WORDS[COMP_CWORD - 2]}" != --sprt ] || return
  case $word in
    -*) mapfile -t COMPREPLY < <(compgen -W '--machines --jobs --joblog --resume --sprt --alpha --beta --help --version' -- "$word") ;;
    *) mapfile -t COMPREPLY < <(compgen -f -- "$word") ;;
  esac
}

complete -F _wineravine wineravine wineravine-bridge
complete -o filenames -F _wineravine_report wineravine-report
complete -F _wineravine_replay replay
complete -F _wineravine_between driver tap reviver
complete -f scripted
