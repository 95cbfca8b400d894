# Completion of gixcfg in fish, made by `tools/completion --write` of the program's sources.
# `make install` puts this file where fish finds it; else into ~/.config/fish/completions.

# Whether the command is one of these words.
function __gixcfg_is
    set -l words (commandline -opc)
    test (count $words) -gt 1; and contains -- $words[2] $argv
end

# Whether so many words stand before the one that is completed.
function __gixcfg_has
    test (count (commandline -opc)) = $argv[1]
end

complete -c gixcfg -f
complete -c gixcfg -n '__gixcfg_has 1' -a get -d 'prints the value of a key, or all of them'
complete -c gixcfg -n '__gixcfg_has 1' -a set -d 'gives a key a value'
complete -c gixcfg -n '__gixcfg_has 1' -a unset -d 'removes a key\'s entry'
complete -c gixcfg -n '__gixcfg_has 1' -a list -d 'prints all entries'
complete -c gixcfg -n '__gixcfg_has 1' -a rename-section -d 'gives a section another name'
complete -c gixcfg -n '__gixcfg_has 1' -a remove-section -d 'removes a section'
complete -c gixcfg -n '__gixcfg_has 1' -a fmt -d 'lays files out'
complete -c gixcfg -n '__gixcfg_has 1' -a check -d 'reports the faults of files'
complete -c gixcfg -n '__gixcfg_has 1' -a diff -d 'prints what two files mean differently'
complete -c gixcfg -n '__gixcfg_has 1' -a explain -d 'tells why a key has its value'
complete -c gixcfg -n '__gixcfg_has 1' -a merge -d 'joins what two files made of a third'
complete -c gixcfg -n '__gixcfg_has 1' -a help -d 'shows how a command is used'
complete -c gixcfg -n '__gixcfg_has 1' -a all -d 'without options: all KEY'
complete -c gixcfg -n '__gixcfg_has 1' -a bool -d 'without options: bool KEY'
complete -c gixcfg -n '__gixcfg_has 1' -a int -d 'without options: int KEY'
complete -c gixcfg -n '__gixcfg_has 1' -a print -d 'without options: print'
complete -c gixcfg -n '__gixcfg_has 1' -a load -d 'without options: load FILE get KEY'
complete -c gixcfg -n '__gixcfg_has 1' -l version -d 'print the version'
complete -c gixcfg -n '__gixcfg_has 1' -s h -l help -d 'list the commands'
complete -c gixcfg -n '__gixcfg_is get list explain' -s f -l file -rF -d 'the file'
complete -c gixcfg -n '__gixcfg_is get set unset list rename-section remove-section fmt explain' -l global -d 'the user\'s file, in place of -f'
complete -c gixcfg -n '__gixcfg_is get set unset list rename-section remove-section fmt explain' -l system -d 'the system\'s file'
complete -c gixcfg -n '__gixcfg_is get set unset list rename-section remove-section fmt explain' -l local -d 'the repository\'s file'
complete -c gixcfg -n '__gixcfg_is get set unset list rename-section remove-section fmt explain' -l worktree -d 'the file of the working tree, if each has one of its own, else the repository\'s'
complete -c gixcfg -n '__gixcfg_is get list' -l effective -d 'all that git reads here, with includes'
complete -c gixcfg -n '__gixcfg_is get set unset list rename-section remove-section fmt check diff explain merge help' -s h -l help -d 'how the command is used'
complete -c gixcfg -n '__gixcfg_is get' -l all -d 'all values, in the order of the file'
complete -c gixcfg -n '__gixcfg_is get' -l regexp -d 'KEY is a pattern, for keys as list prints them'
complete -c gixcfg -n '__gixcfg_is get' -l value -x -d 'only values in which the pattern is found'
complete -c gixcfg -n '__gixcfg_is get' -l fixed-value -d 'only values that are that text'
complete -c gixcfg -n '__gixcfg_is get' -l url -x -d 'the entry whose subsection is the URL that matches this one best, as of http.sslVerify'
complete -c gixcfg -n '__gixcfg_is get' -l default -x -d 'this value if the key isn\'t there'
complete -c gixcfg -n '__gixcfg_is get set' -s t -l type -xa 'bool int bool-or-int bool-or-str path expiry-date color' -d 'the value as bool, int, bool-or-int, bool-or-str, path, expiry-date or color'
complete -c gixcfg -n '__gixcfg_is get' -s z -l null -d 'a byte 0 in place of each line feed, and a line feed after each key'
complete -c gixcfg -n '__gixcfg_is get' -l show-origin -d 'the file before each value'
complete -c gixcfg -n '__gixcfg_is get' -l show-scope -d 'system, global, local, worktree or command before each value'
complete -c gixcfg -n '__gixcfg_is get' -l show-position -d 'the file before each value, with line and column'
complete -c gixcfg -n '__gixcfg_is get list' -l includes -d 'what is included too, as with --effective and standard input'
complete -c gixcfg -n '__gixcfg_is get list explain' -l no-includes -d 'not what is included'
complete -c gixcfg -n '__gixcfg_is get list' -l show-names -d 'the key before each value'
complete -c gixcfg -n '__gixcfg_is get' -l name-only -d 'the key without the value'
complete -c gixcfg -n '__gixcfg_is set' -s f -l file -rF -d 'the file, which is changed in place, and made if it isn\'t there'
complete -c gixcfg -n '__gixcfg_is set' -l all -d 'one entry in place of all entries of the key, where the last of them is'
complete -c gixcfg -n '__gixcfg_is set' -l append -d 'one more entry, at the end of the last section of the name'
complete -c gixcfg -n '__gixcfg_is set' -l value -x -d 'only of entries in whose value the pattern is found, or isn\'t if ! is before it'
complete -c gixcfg -n '__gixcfg_is set' -l fixed-value -d 'only of entries whose value is that text'
complete -c gixcfg -n '__gixcfg_is set' -l comment -x -d 'this comment after the value, in place of one that is there'
complete -c gixcfg -n '__gixcfg_is set unset rename-section remove-section fmt' -l no-sync -d 'the new file isn\'t written down to the disk first'
complete -c gixcfg -n '__gixcfg_is unset rename-section remove-section fmt' -s f -l file -rF -d 'the file, which is changed in place'
complete -c gixcfg -n '__gixcfg_is unset' -l all -d 'all entries of the key'
complete -c gixcfg -n '__gixcfg_is unset' -l value -x -d 'only entries in whose value the pattern is found, or isn\'t if ! is before it'
complete -c gixcfg -n '__gixcfg_is unset' -l fixed-value -d 'only entries whose value is that text'
complete -c gixcfg -n '__gixcfg_is list' -s t -l type -xa 'bool int bool-or-int bool-or-str path expiry-date color' -d 'only values of this type, printed in it'
complete -c gixcfg -n '__gixcfg_is list diff' -s z -l null -d 'a byte 0 in place of each line feed at the end, and a line feed after each key'
complete -c gixcfg -n '__gixcfg_is list' -l show-origin -d 'the file before each entry'
complete -c gixcfg -n '__gixcfg_is list' -l show-scope -d 'system, global, local, worktree or command before each entry'
complete -c gixcfg -n '__gixcfg_is list' -l show-position -d 'the file before each entry, with line and column'
complete -c gixcfg -n '__gixcfg_is list' -l name-only -d 'keys without values'
complete -c gixcfg -n '__gixcfg_is fmt' -l check -d 'nothing is written, but which files aren\'t laid out'
complete -c gixcfg -n '__gixcfg_is fmt' -l indent -xa 'tabs:1 spaces:2 spaces:4 spaces:8' -d 'what comes before an entry'
complete -c gixcfg -n '__gixcfg_is fmt' -l newline -xa 'lf crlf detect' -d 'what lines end with'
complete -c gixcfg -n '__gixcfg_is check' -s q -l quiet -d 'nothing is printed'
complete -c gixcfg -n '__gixcfg_is check' -l lenient -d 'what git makes of the file isn\'t asked'
complete -c gixcfg -n '__gixcfg_is check' -l names -d 'reported are also names that git doesn\'t know in its own sections or has given up, values of a wrong type, and settings that the file sets again'
complete -c gixcfg -n '__gixcfg_is diff' -s q -l quiet -d 'no differences are printed'
complete -c gixcfg -n '__gixcfg_is explain' -l effective -d 'all that git reads here, as without a file'
complete -c gixcfg -n '__gixcfg_is explain' -s z -l null -d 'a byte 0 behind each field'
complete -c gixcfg -n '__gixcfg_is explain' -l includes -d 'what is included too, as without a file'
complete -c gixcfg -n '__gixcfg_is merge' -s q -l quiet -d 'conflicts aren\'t reported'
complete -c gixcfg -n '__gixcfg_is merge' -s o -l output -x -d 'the file that gets the result, in place of standard output'
complete -c gixcfg -n '__gixcfg_is merge' -l ours -d 'in a conflict the values of OURS are taken'
complete -c gixcfg -n '__gixcfg_is merge' -l theirs -d 'in a conflict the values of THEIRS are taken'
complete -c gixcfg -n '__gixcfg_is merge' -l union -d 'in a conflict the values of OURS are taken, and then those that only THEIRS has'
complete -c gixcfg -n '__gixcfg_is fmt' -F
complete -c gixcfg -n '__gixcfg_is check' -F
complete -c gixcfg -n '__gixcfg_is diff' -F
complete -c gixcfg -n '__gixcfg_is help; and __gixcfg_has 2' -a 'get set unset list rename-section remove-section fmt check diff explain merge help'
complete -c gixcfg -n '__gixcfg_is load; and __gixcfg_has 2' -F
complete -c gixcfg -n '__gixcfg_is load; and __gixcfg_has 3' -a 'get'
