# Completion of kaba and of its tools, for bash.

_kaba_files() {
    local cur=${COMP_WORDS[COMP_CWORD]} ending=$1
    compopt -o filenames 2>/dev/null
    mapfile -t COMPREPLY < <(compgen -d -- "$cur"; compgen -f -X "!*.$ending" -- "$cur")
}

_kaba_words() {
    mapfile -t COMPREPLY < <(compgen -W "$1" -- "${COMP_WORDS[COMP_CWORD]}")
}

_kaba() {
    local cur=${COMP_WORDS[COMP_CWORD]} command=${COMP_WORDS[1]} at word
    if [ "$COMP_CWORD" = 1 ]; then
        _kaba_words "run table lattice base why sure same edit regen make --help --version"
        return
    fi
    COMPREPLY=()
    if [ "$COMP_CWORD" = 2 ] && [[ $cur == -* ]]; then
        case $command in
            lattice) _kaba_words "-j -c" ;;
            edit | regen) _kaba_words "-c" ;;
            make) _kaba_words "-p" ;;
        esac
        return
    fi
    at=$COMP_CWORD
    for word in "${COMP_WORDS[@]:2:COMP_CWORD-2}"; do
        case $word in -j | -p) at=$((at - 1)) ;; -c) at=$((at - 2)) ;; esac
    done
    case $command.$at in
        run.2 | table.2 | lattice.2 | base.2 | why.2 | sure.2 | same.2 | same.3 | edit.2 | regen.2) _kaba_files java ;;
        edit.3 | regen.3) _kaba_files edits ;;
        run.*) _kaba_files "*" ;;
    esac
}

# A tool's flags are those that its --help names.
_kaba_tool() {
    local cur=${COMP_WORDS[COMP_CWORD]}
    if [[ $cur == -* ]]; then
        _kaba_words "$("$1" --help 2>/dev/null | grep -oE -- '--[a-z-]+' | sort -u)"
    else
        _kaba_files "@(java|edits)"
    fi
}

complete -F _kaba kaba
for _kaba_name in $(compgen -c kaba- | sort -u); do
    complete -F _kaba_tool "$_kaba_name"
done
unset _kaba_name
