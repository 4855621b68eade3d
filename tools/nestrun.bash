# Completions of ./nestrun for bash, made by tools/command_papers.py: `. tools/nestrun.bash`
_nestrun() {
  local word=${COMP_WORDS[COMP_CWORD]} mode= at=0 behind=0
  for ((at = 1; at < COMP_CWORD; at++)); do
    case ${COMP_WORDS[at]} in
      --workers|--chunk|--sample|--steps) at=$((at + 1)) ;;
      -*) ;;
      plain|run|check|deps|gen) [ -n "$mode" ] && behind=$((behind + 1)); mode=${mode:-${COMP_WORDS[at]}} ;;
      *) behind=$((behind + 1)) ;;
    esac
  done
  COMPREPLY=()
  [ "$COMP_CWORD" -gt 1 ] && case ${COMP_WORDS[COMP_CWORD - 1]} in --workers|--chunk|--sample|--steps) return ;; esac
  case $word in
    -*) COMPREPLY=($(compgen -W "--workers --chunk --sample --steps $([ -n "$mode" ] || echo --help --quiet --unproved)" -- "$word")); return ;;
  esac
  [ -n "$mode" ] || { COMPREPLY=($(compgen -W "plain run check deps gen" -- "$word")); return; }
  case $mode:$((behind + 1)) in
    gen:2) COMPREPLY=($(compgen -W "copy list grid" -- "$word")); return ;;
    gen:*) return ;;
  esac
  COMPREPLY=($(compgen -f -X '!*.nest' -- "$word") $(compgen -d -- "$word"))
}
complete -o filenames -F _nestrun nestrun ./nestrun
