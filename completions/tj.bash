# Completions of tj and tj-why for bash: put `source CLONE/completions/tj.bash` into ~/.bashrc.

# Completes these words, and where `-f` comes first also files.
_tj_complete() {
    local word=${COMP_WORDS[COMP_CWORD]}
    if [ "${1-}" = -f ]; then
        shift
        compopt -o filenames
        mapfile -t COMPREPLY < <(compgen -W "$*" -- "$word"; compgen -f -- "$word")
    else
        mapfile -t COMPREPLY < <(compgen -W "$*" -- "$word")
    fi
}

_tj() {
    local at=1 word=${COMP_WORDS[COMP_CWORD]} before=${COMP_WORDS[COMP_CWORD - 1]} words file=
    local modes='run plan list judge gen known relay watch'
    [ "${COMP_WORDS[1]}" != --unproved ] || [ "$COMP_CWORD" -eq 1 ] || at=2
    if [ "$COMP_CWORD" -eq 1 ]; then
        _tj_complete "$modes prove --unproved --help --version"
        return
    elif [ "$COMP_CWORD" -eq "$at" ]; then
        _tj_complete "$modes"
        return
    fi
    case $before in
        '<') _tj_complete -f && return ;;
        --workers) _tj_complete 1 2 4 8 16 32 64 && return ;;
        --cells | --steps | --size) return ;;
    esac
    case ${COMP_WORDS[at]} in
        run) words='--workers --cells --steps --strict' file=-f ;;
        plan) words='--cells --steps --strict' file=-f ;;
        list) words='' file=-f ;;
        judge) words='--cells' file=-f ;;
        known) words='--cells --steps' file=-f ;;
        watch) words='--workers --cells --steps' file=-f ;;
        gen) words='--size --workers --cells --steps' ;;
        relay) words='--size --workers --cells' ;;
    esac
    case $word in -*) file= ;; esac
    # shellcheck disable=SC2086
    _tj_complete $file $words
}
complete -F _tj tj ./tj

_tj_why() {
    local word=${COMP_WORDS[COMP_CWORD]} before=${COMP_WORDS[COMP_CWORD - 1]} words='--cells --steps --strict --short --all --dot --json'
    case $before in
        '<') _tj_complete -f && return ;;
        --cells | --steps) return ;;
    esac
    [ "$COMP_CWORD" -gt 1 ] || words="prove $words --unproved --help --version"
    case $word in
        -*) _tj_complete "$words" ;;
        *) _tj_complete -f "$words" ;;
    esac
}
complete -F _tj_why tj-why ./tj-why
