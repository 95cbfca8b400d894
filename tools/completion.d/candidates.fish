# Prints what fish completes the last word of a call of gixcfg to, a line each, without the --NAME= that may stand before it.
#
#     fish --no-config candidates.fish completions/gixcfg.fish WORD..
set fish_complete_path
source $argv[1]
complete -C "gixcfg $argv[2..]" | string split -f 1 \t | string replace -r '^--[a-z-]+=' ''
