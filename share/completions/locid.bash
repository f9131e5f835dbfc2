# Completion of locid for bash. tools/write_options --check compares this with tools/locid_options.txt.
_locid() {
    local current=${COMP_WORDS[COMP_CWORD]} before=${COMP_WORDS[COMP_CWORD - 1]} words
    COMPREPLY=()
    if [ "$COMP_CWORD" -eq 1 ]; then
        COMPREPLY=($(compgen -W 'normalize check parts --help --version' -- "$current"))
        return
    fi
    case $before in
        -m | --mode) COMPREPLY=($(compgen -W 'langid locale data' -- "$current")); return ;;
        -f | --format) COMPREPLY=($(compgen -W 'tsv json' -- "$current")); return ;;
    esac
    case ${COMP_WORDS[1]} in
        normalize) words='-m --mode -c --clean -0 --null -w --where -n --line-number -o --only-refused -e --exit-status -q --quiet --count -h --help -V --version' ;;
        check) words='-m --mode -c --clean -0 --null -s --show -q --quiet --count -h --help -V --version' ;;
        parts) words='-m --mode -c --clean -0 --null -f --format -e --exit-status -h --help -V --version' ;;
        *) words= ;;
    esac
    case $current in
        -*) COMPREPLY=($(compgen -W "$words" -- "$current")) ;;
        *) compopt -o default 2> /dev/null ;;
    esac
}
complete -F _locid locid
