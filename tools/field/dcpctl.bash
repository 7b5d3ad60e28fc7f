# Completion of bash for dcpctl: the commands, and behind `slave` and `conform` the names of the slaves of the scenario
# or the trace that stands behind `<` on the line. Source it, or put it into a folder of completions by tools/install.
_dcpctl_names() {
    local file
    file=$(sed -n 's/.*<[[:space:]]*\([^[:space:]<>|&;]*\).*/\1/p' <<<"$COMP_LINE")
    [[ -r $file ]] && awk '$1 == "slave" {print $2}' < <(head -c 1048576 "$file" | tr -d '\0')
}

_dcpctl() {
    local word=${COMP_WORDS[COMP_CWORD]} before=${COMP_WORDS[COMP_CWORD - 1]}
    COMPREPLY=()
    case $before in
        '<' | '>' | '2>')
            mapfile -t COMPREPLY < <(compgen -f -- "$word")
            compopt -o filenames
            ;;
        slave | conform)
            mapfile -t COMPREPLY < <(compgen -W "$(_dcpctl_names)" -- "$word")
            ;;
        *)
            ((COMP_CWORD == 1)) || return
            mapfile -t COMPREPLY < <(compgen -W 'decode encode describe talk reference run soak replay conform live master slave bridge help' -- "$word")
            ;;
    esac
}
complete -F _dcpctl dcpctl ./dcpctl
