#!/usr/bin/env bash
# Prints what bash completes the last word of a call of gixcfg to, a line each.
#
#     candidates.bash completions/gixcfg.bash WORD..
# shellcheck source=/dev/null
. "$1"
shift
COMP_WORDS=(gixcfg)
for word; do
    # as bash itself does, since = is one of COMP_WORDBREAKS
    case $word in
    --*=*) COMP_WORDS+=("${word%%=*}" "=" "${word#*=}") ;;
    *) COMP_WORDS+=("$word") ;;
    esac
done
COMP_CWORD=$((${#COMP_WORDS[@]} - 1))
_gixcfg
printf '%s\n' "${COMPREPLY[@]}"
