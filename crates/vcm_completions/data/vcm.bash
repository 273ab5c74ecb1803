# Completions of vcm for bash: source this file, or put it into ~/.local/share/bash-completion/completions as vcm.
# Files with one of these ends, and folders; any files where there is no end.
_vcm_files() {
  local word=$1 end
  shift
  if [ $# -eq 0 ]; then
    COMPREPLY=($(compgen -f -- "$word"))
    return
  fi
  COMPREPLY=($(compgen -d -- "$word"))
  for end in "$@"; do
    COMPREPLY+=($(compgen -f -X "!*.$end" -- "$word"))
  done
}
# What a command takes: its options; of those with a value the ends of its files, or a point where it is none; the ends of the files of its words.
_vcm_takes() {
  options= valued= files=() is_many=
  case $1 in
    check) options="--talk --quiet --all --whole --frame --given --apprch --retrct --search --auto --approach --harmless --table" valued="--frame:. --given:. --apprch:. --retrct:. --search:. --harmless:. --table:." files=("dmi dmis") is_many=1 ;;
    survey) options="--tip --part --frame --exact --lines" valued="--tip:. --part:toml --frame:." files=("dmi dmis") ;;
    adapt) options="--tip --part --frame --exact --touch" valued="--tip:. --part:toml --frame:." files=("dmi dmis") ;;
    build) options="--talk --quiet" valued="" files=("dmi dmis" "") ;;
    run) options="--talk --quiet --steps --place --strict --show --probe --whole --frame --given --apprch --retrct --search --auto --approach --harmless --table" valued="--steps:. --place:. --show:. --probe:toml --frame:. --given:. --apprch:. --retrct:. --search:. --harmless:. --table:." files=("dmi dmis vcmi" "toml") ;;
    why) options="--quiet --steps --place --strict --probe --whole --frame --given --apprch --retrct --search --auto --approach --harmless --table" valued="--steps:. --place:. --probe:toml --frame:. --given:. --apprch:. --retrct:. --search:. --harmless:. --table:." files=("dmi dmis vcmi" "toml") ;;
    contacts) options="--quiet --steps --place --strict --probe --whole --frame --given --apprch --retrct --search --auto --approach --harmless --table" valued="--steps:. --place:. --probe:toml --frame:. --given:. --apprch:. --retrct:. --search:. --harmless:. --table:." files=("dmi dmis vcmi" "toml") ;;
    trace) options="--quiet --steps --place --strict --probe --whole --frame --given --apprch --retrct --search --auto --approach --harmless --table" valued="--steps:. --place:. --probe:toml --frame:. --given:. --apprch:. --retrct:. --search:. --harmless:. --table:." files=("dmi dmis vcmi" "toml") ;;
    margin) options="--quiet --steps --place --strict --whole --frame --given --apprch --retrct --search --auto --approach --harmless --table" valued="--steps:. --place:. --frame:. --given:. --apprch:. --retrct:. --search:. --harmless:. --table:." files=("dmi dmis vcmi" "toml") ;;
    points) options="--quiet --steps --place --strict --machine --probe --whole --frame --given --apprch --retrct --search --auto --approach --harmless --table" valued="--steps:. --place:. --probe:toml --frame:. --given:. --apprch:. --retrct:. --search:. --harmless:. --table:." files=("dmi dmis vcmi" "toml") ;;
    clearance) options="--quiet --steps --place --strict --whole --frame --given --apprch --retrct --search --auto --approach --harmless --table" valued="--steps:. --place:. --frame:. --given:. --apprch:. --retrct:. --search:. --harmless:. --table:." files=("dmi dmis vcmi" "toml" "toml") ;;
    picture) options="--quiet --steps --place --strict --close --sheet --lines --paper --probe --whole --frame --given --apprch --retrct --search --auto --approach --harmless --table" valued="--steps:. --place:. --lines:. --paper:. --probe:toml --frame:. --given:. --apprch:. --retrct:. --search:. --harmless:. --table:." files=("dmi dmis vcmi" "toml") ;;
    view) options="--quiet --steps --place --strict --probe --whole --frame --given --apprch --retrct --search --auto --approach --harmless --table" valued="--steps:. --place:. --probe:toml --frame:. --given:. --apprch:. --retrct:. --search:. --harmless:. --table:." files=("dmi dmis vcmi" "toml") ;;
    place) options="--quiet --steps --strict --by --from-line" valued="--steps:. --by:. --from-line:." files=("dmi dmis vcmi" "toml") ;;
    judge) options="--steps --part --probe --place --strict --whole --frame --given --apprch --retrct --search --auto --approach --harmless --table --csv --junit --report" valued="--steps:. --part:toml --probe:toml --place:. --frame:. --given:. --apprch:. --retrct:. --search:. --harmless:. --table:. --junit:. --report:." files=("dmi dmis") is_many=1 ;;
    part) options="--quiet --place --strict" valued="--place:." files=("toml") ;;
    blocks) options="--talk --quiet --unit --turn --at --within --most --near --into --name" valued="--unit:. --turn:. --at:. --within:. --most:. --near:csv --into:toml --name:." files=("stl") ;;
    probe) options="" valued="" files=("toml") ;;
    debug) options="--talk --quiet --probe --place --strict --whole --frame --given --apprch --retrct --search --auto --approach --harmless --table" valued="--probe:toml --place:. --frame:. --given:. --apprch:. --retrct:. --search:. --harmless:. --table:." files=("dmi dmis vcmi" "toml") ;;
    dap) options="" valued="" files=() ;;
    list) options="--talk --quiet" valued="" files=("dmi dmis vcmi") ;;
    asm) options="--talk" valued="" files=("" "") ;;
    explain) options="" valued="" files=() ;;
  esac
}
_vcm() {
  local word=${COMP_WORDS[COMP_CWORD]} before=${COMP_WORDS[COMP_CWORD-1]} options valued files is_many i place=0
  local commands="check survey adapt build run why contacts trace margin points clearance picture view place judge part blocks probe debug dap list asm explain"
  COMPREPLY=()
  if [ "$COMP_CWORD" -eq 1 ]; then
    COMPREPLY=($(compgen -W "$commands help --help --version" -- "$word"))
    return
  fi
  _vcm_takes "${COMP_WORDS[1]}"
  for i in $valued; do
    if [ "${i%%:*}" = "$before" ]; then
      [ "${i#*:}" = . ] || _vcm_files "$word" "${i#*:}"
      return
    fi
  done
  if [[ $word == -* ]]; then
    COMPREPLY=($(compgen -W "$options --help" -- "$word"))
    return
  fi
  case ${COMP_WORDS[1]} in
    help)
      COMPREPLY=($(compgen -W "$commands" -- "$word"))
      return
      ;;
    explain)
      COMPREPLY=($(compgen -W "$(vcm explain 2>/dev/null | cut -d' ' -f1)" -- "$word"))
      return
      ;;
  esac
  for ((i = 2; i < COMP_CWORD; i++)); do
    case " $valued" in
      *" ${COMP_WORDS[i]}:"*) ((i++)) ;;
      *) [[ ${COMP_WORDS[i]} == -* ]] || ((place++)) ;;
    esac
  done
  [ -n "$is_many" ] && place=0
  [ "$place" -ge "${#files[@]}" ] || _vcm_files "$word" ${files[place]}
}
complete -o filenames -F _vcm vcm
