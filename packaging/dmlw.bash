# Completions of dmlw for bash. The commands and their words are those that `dmlw help` prints.
_dmlw() {
    local word=${COMP_WORDS[COMP_CWORD]} it words=() names usage=()
    COMPREPLY=()
    # The words before this one, without the program's name and the option.
    for it in "${COMP_WORDS[@]:1:COMP_CWORD-1}"; do [ "$it" = --explain ] || words+=("$it"); done
    names=$(command dmlw help 2>/dev/null | sed -n 's/^  \([a-z][a-z]*\)  .*/\1/p')
    if [ "${#words[@]}" = 0 ]; then
        [ -z "$names" ] || mapfile -t COMPREPLY < <(compgen -W "$names --explain --help --version" -- "$word")
        return
    fi
    if [ "${words[*]}" = help ]; then
        mapfile -t COMPREPLY < <(compgen -W "${names/help/formats}" -- "$word")
        return
    fi
    # The usage has the program's name, the command and the names of its words.
    case " "${names//$'\n'/ }" " in
    *" ${words[0]} "*) read -ra usage < <(command dmlw help "${words[0]}" 2>/dev/null | sed -n 's/\[OPTIONS\] //; s/^Usage: //p') ;;
    esac
    case ${usage[${#words[@]} + 1]} in
    '<WHAT>')
        mapfile -t COMPREPLY < <(compgen -W 'entries: mark: flush' -- "$word")
        [ "${#COMPREPLY[@]}" != 1 ] || [ "${COMPREPLY[0]}" = flush ] || compopt -o nospace
        ;;
    '<M>' | '<SECTORS>') ;;
    '<'*)
        compopt -o filenames
        mapfile -t COMPREPLY < <(compgen -f -- "$word")
        ;;
    esac
}
complete -F _dmlw dmlw
