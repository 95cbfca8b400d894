# Prints what zsh completes the last word of a call of gixcfg to, a line each.
#
#     zsh -f candidates.zsh completions/_gixcfg WORD..
#
# zsh completes only in a shell that somebody types into. So one is begun behind a pseudo-terminal, the words and a tab are
# typed, and each match that the completion adds is noted in a file.
zmodload zsh/zpty
directory=${1:A:h}
shift
export CANDIDATES_ROOM=$(mktemp -d)
trap 'rm -rf $CANDIDATES_ROOM' EXIT
: >$CANDIDATES_ROOM/found

cat >$CANDIDATES_ROOM/.zshrc <<'END'
PROMPT= RPROMPT=
autoload -Uz compinit
compinit -u -D
bindkey '^I' complete-word
zstyle ':completion:*' insert-tab false
compadd() {
    # With -O, -A or -D it only fills arrays.
    if [[ ${@[1,(i)(-|--)]} == *-(O|A|D)\ * ]]; then
        builtin compadd "$@"
        return
    fi
    local -a found
    builtin compadd -O found "$@"
    print -rl -- $found >>$CANDIDATES_ROOM/found
    builtin compadd "$@"
}
comppostfuncs=(note_end)
note_end() { : >$CANDIDATES_ROOM/end }
: >$CANDIDATES_ROOM/begun
END

# until_there FILE: waits for it, some ten seconds.
until_there() {
    repeat 1000; do
        [[ ! -e $CANDIDATES_ROOM/$1 ]] || return 0
        # what the shell shows has to be read, or it stands still
        zpty -r -t shell shown || sleep 0.01
    done
    print -u2 "candidates.zsh: no $1"
    exit 2
}

export ZDOTDIR=$CANDIDATES_ROOM FPATH=$directory:$FPATH TERM=dumb
# (exec, since the trap above is for this process alone)
zpty -b shell exec zsh --no-global-rcs -i
until_there begun
zpty -w -n shell "gixcfg $*"$'\t'
until_there end
zpty -d shell
grep . $CANDIDATES_ROOM/found
