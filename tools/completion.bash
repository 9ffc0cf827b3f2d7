# Completion of pyvrp's words in bash: --seed S --max_iterations N NAME, in this order.
_pyvrp() {
  local word=${COMP_WORDS[COMP_CWORD]}
  COMPREPLY=()
  case $COMP_CWORD in
    1) COMPREPLY=(--seed) ;;
    3) COMPREPLY=(--max_iterations) ;;
    5)
      mapfile -t COMPREPLY < <(compgen -f -X '!*.vrp' -- "$word"; compgen -d -- "$word")
      [ ${#COMPREPLY[@]} != 0 ] || mapfile -t COMPREPLY < <(compgen -f -- "$word")
      ;;
  esac
}
complete -o filenames -F _pyvrp pyvrp
