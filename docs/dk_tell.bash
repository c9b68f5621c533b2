# Completions of dk_tell for bash. In a shell: . docs/dk_tell.bash
# They give the options that may still stand (each may be given once) where an argument begins with -, and names of files elsewhere.

_dk_tell() {
    local word=${COMP_WORDS[COMP_CWORD]} before=${COMP_WORDS[COMP_CWORD - 1]} given=' ' other left=() i
    COMPREPLY=()
    for ((i = 1; i < COMP_CWORD; i++)); do
        other=${COMP_WORDS[i]}
        if [[ $other == -- ]]; then
            break
        fi
        given+="$other "
    done
    if [[ $i -eq $COMP_CWORD ]]; then
        # a value, which bash may have parted from its option at the =
        [[ $word == = ]] && return
        [[ $before == = ]] && before=${COMP_WORDS[COMP_CWORD - 2]}
        case $before in
            --format) return ;;
        esac
        if [[ $word == -* ]]; then
            for other in --format --ignore-missing-entry --help --version --; do
                [[ $given == *" $other "* ]] || left+=("$other")
            done
            mapfile -t COMPREPLY < <(compgen -W "${left[*]}" -- "$word")
            return
        fi
    fi
    mapfile -t COMPREPLY < <(compgen -f -- "$word")
    compopt -o filenames 2>/dev/null
}

complete -F _dk_tell dk_tell ./dk_tell
