# Completion of pierheather's commands for bash, made by command/make_help.py of command/commands.txt: source this file, or
# put it into the folder of bash-completion under the command's name.
_pierheather() {
  local word=${COMP_WORDS[COMP_CWORD]} choices= files=no
  if [ "$COMP_CWORD" -eq 1 ]; then
    choices='find why day saka month signs plate drift lunar-month iso almanac help --help --version'
  else
    files=yes
    case ${COMP_WORDS[1]} in
    find) choices='--names --csv --edition --help' ;;
    why) choices='--names --edition --help' ;;
    day) choices='--edition --help' files=no ;;
    saka) choices='--help' files=no ;;
    month) choices='--names --csv --days --edition --help' files=no ;;
    signs) choices='--true --help' files=no ;;
    plate) choices='--help' files=no ;;
    drift) choices='--help' files=no ;;
    lunar-month) choices='--edition --help' files=no ;;
    iso) if [ "$COMP_CWORD" -eq 2 ]; then choices='--to-days --to-dates --help' files=no; fi ;;
    almanac) if [ "$COMP_CWORD" -eq 2 ]; then choices='write read --help' files=no; fi ;;
    help) choices='find why day saka month signs plate drift lunar-month iso almanac help' files=no ;;
    esac
  fi
  mapfile -t COMPREPLY < <(compgen -W "$choices" -- "$word")
  if [ $files = yes ] && [[ $word != -* ]]; then
    mapfile -t -O "${#COMPREPLY[@]}" COMPREPLY < <(compgen -f -- "$word")
  fi
}
complete -o filenames -F _pierheather pierheather ./pierheather
