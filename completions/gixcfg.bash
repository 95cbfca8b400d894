# Completion of gixcfg in bash, made by `tools/completion --write` of the program's sources.
# `make install` puts this file where bash-completion finds it; without that package, source it.

_gixcfg() {
    local word=${COMP_WORDS[COMP_CWORD]} before=${COMP_WORDS[COMP_CWORD-1]} command=${COMP_WORDS[1]} words=""
    COMPREPLY=()
    # bash takes --type=bool apart, into three words.
    if [ "$word" = "=" ]; then
        word=""
    elif [ "$before" = "=" ]; then
        before=${COMP_WORDS[COMP_CWORD-2]}
    fi
    if [ "$COMP_CWORD" = 1 ]; then
        before="" command=""
    fi
    case $before in
    -f | --file)
        _gixcfg_files "$word"
        return
        ;;
    --value) return ;;
    --url) return ;;
    --default) return ;;
    -t | --type) words="bool int bool-or-int bool-or-str path expiry-date color" ;;
    --comment) return ;;
    --indent) words="tabs:1 spaces:2 spaces:4 spaces:8" ;;
    --newline) words="lf crlf detect" ;;
    -o | --output) return ;;
    *)
        case $command:$word in
        :-*) words="--version -h --help" ;;
        get:-*) words="--file -f --global --system --local --worktree --effective --help -h --all --regexp --value --fixed-value --url --default --type -t --null -z --show-origin --show-scope --show-position --includes --no-includes --show-names --name-only" ;;
        set:-*) words="--file -f --global --system --local --worktree --help -h --all --append --value --fixed-value --type -t --comment --no-sync" ;;
        unset:-*) words="--file -f --global --system --local --worktree --help -h --all --value --fixed-value --no-sync" ;;
        list:-*) words="--file -f --global --system --local --worktree --effective --help -h --type -t --null -z --show-origin --show-scope --show-position --includes --no-includes --show-names --name-only" ;;
        rename-section:-*) words="--file -f --global --system --local --worktree --help -h --no-sync" ;;
        remove-section:-*) words="--file -f --global --system --local --worktree --help -h --no-sync" ;;
        fmt:-*) words="--file -f --global --system --local --worktree --help -h --check --indent --newline --no-sync" ;;
        check:-*) words="--help -h --quiet -q --lenient --names" ;;
        diff:-*) words="--help -h --null -z --quiet -q" ;;
        explain:-*) words="--file -f --global --system --local --worktree --effective --help -h --null -z --includes --no-includes" ;;
        merge:-*) words="--help -h --quiet -q --output -o --ours --theirs --union" ;;
        help:-*) words="--help -h" ;;
        :*) words="get set unset list rename-section remove-section fmt check diff explain merge help all bool int print load" ;;
        help:*) words="get set unset list rename-section remove-section fmt check diff explain merge help" ;;
        fmt:*)
            _gixcfg_files "$word"
            return
            ;;
        check:*)
            _gixcfg_files "$word"
            return
            ;;
        diff:*)
            _gixcfg_files "$word"
            return
            ;;
        load:*)
            case $COMP_CWORD in
            2) _gixcfg_files "$word" && return ;;
            3) words="get" ;;
            esac
            ;;
        esac
        ;;
    esac
    mapfile -t COMPREPLY < <(compgen -W "$words" -- "$word")
}

# The files that a word begins.
_gixcfg_files() {
    mapfile -t COMPREPLY < <(compgen -f -- "$1")
    # readline then writes a slash after a directory, and a backslash before a space. (A test has no completion to set that for.)
    compopt -o filenames 2>/dev/null || true
}

complete -F _gixcfg gixcfg
