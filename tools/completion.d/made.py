"""The files of completions/, made of what the program's sources say of its commands and options."""
import re

NOTE = "made by `tools/completion --write` of the program's sources"
FALLEN_BACK = {"--no-includes": "not what is included", "--help": "how the command is used", "-h": "how the command is used"}
FILES = ("FILE", "FILE...", "A", "B")

BASH = """\
# Completion of gixcfg in bash, {note}.
# `make install` puts this file where bash-completion finds it; without that package, source it.

_gixcfg() {{
    local word=${{COMP_WORDS[COMP_CWORD]}} before=${{COMP_WORDS[COMP_CWORD-1]}} command=${{COMP_WORDS[1]}} words=""
    COMPREPLY=()
    # bash takes --type=bool apart, into three words.
    if [ "$word" = "=" ]; then
        word=""
    elif [ "$before" = "=" ]; then
        before=${{COMP_WORDS[COMP_CWORD-2]}}
    fi
    if [ "$COMP_CWORD" = 1 ]; then
        before="" command=""
    fi
    case $before in
{values}
    *)
        case $command:$word in
        :-*) words="{dashed}" ;;
{options}
        :*) words="{first}" ;;
        help:*) words="{commands}" ;;
{others}
        esac
        ;;
    esac
    mapfile -t COMPREPLY < <(compgen -W "$words" -- "$word")
}}

# The files that a word begins.
_gixcfg_files() {{
    mapfile -t COMPREPLY < <(compgen -f -- "$1")
    # readline then writes a slash after a directory, and a backslash before a space. (A test has no completion to set that for.)
    compopt -o filenames 2>/dev/null || true
}}

complete -F _gixcfg gixcfg
"""

ZSH = """\
#compdef gixcfg
# Completion of gixcfg in zsh, {note}.
# `make install` puts this file where Debian's zsh finds it; else into a directory of $fpath.

_gixcfg() {{
    local curcontext=$curcontext state line
    local -a commands plain
    typeset -A opt_args

    commands=(
{commands}
    )
    plain=(
{plain}
    )
    _arguments -C \\
        '(- *)--version[print the version]' \\
        '(- *)'{{-h,--help}}'[list the commands]' \\
        '1: :->command' \\
        '*:: :->words' && return

    case $state in
    command)
        _describe -t commands 'command' commands -- plain
        ;;
    words)
        curcontext=${{curcontext%:*}}-$words[1]:
        case $words[1] in
{words}
        esac
        ;;
    esac
}}

_gixcfg "$@"
"""

FISH = """\
# Completion of gixcfg in fish, {note}.
# `make install` puts this file where fish finds it; else into ~/.config/fish/completions.

# Whether the command is one of these words.
function __gixcfg_is
    set -l words (commandline -opc)
    test (count $words) -gt 1; and contains -- $words[2] $argv
end

# Whether so many words stand before the one that is completed.
function __gixcfg_has
    test (count (commandline -opc)) = $argv[1]
end

complete -c gixcfg -f
{lines}
"""


def files(words):
    """The three files, by their names."""
    return {"gixcfg.bash": bash(words), "_gixcfg": zsh(words), "gixcfg.fish": fish(words)}


def said_of(words):
    """What is said of each option of each command, in short: what help says, up to a semicolon or a colon."""
    said = {command.word: command.sentences() for command in words.commands}
    all_said = {word: text for sentences in reversed(said.values()) for word, text in sentences.items()}
    return {command: {word: re.split("[;:] ", said[command].get(word) or FALLEN_BACK.get(word) or all_said[word])[0] for word in options}
            for command, options in words.options.items()}


def summaries(words):
    """What is said of each command."""
    said = dict(re.findall(r"^    ([\w-]+)  +(\S.*)$", words.overview, re.MULTILINE))
    return {word: said[word] for word in words.options}


def operands(call):
    """The words of a call that are no options."""
    left = re.sub(r"\[-[^][]*\]", "", call)
    return left.split() if left == call else operands(left)


def calls(words):
    """The words that follow each command, with options or without."""
    yield from ((command.word, [it.strip("[]") for it in operands(command.synopsis())[2:]]) for command in words.commands)
    yield from ((word, operands(call)[1:]) for word, call in words.plain.items())


def bash(words):
    values, taken = [], {option.long: option for command in words.commands for option in command.options if option.takes_word}
    for option in taken.values():
        spelled = " | ".join(sorted(option.words(), key=len))
        if option.long == "file":
            values.append(f'    {spelled})\n        _gixcfg_files "$word"\n        return\n        ;;')
        elif option.long in words.values:
            values.append(f'    {spelled}) words="{" ".join(words.values[option.long])}" ;;')
        else:
            values.append(f"    {spelled}) return ;;")
    others = []
    for word, follow in calls(words):
        if follow and all(it in FILES for it in follow):
            others.append(f'        {word}:*)\n            _gixcfg_files "$word"\n            return\n            ;;')
        elif any(it in FILES or it.islower() for it in follow):
            arms = [f'            {at}) {f"""_gixcfg_files "$word" && return""" if it in FILES else f"""words="{it}" """.strip()} ;;'
                    for at, it in enumerate(follow, 2) if it in FILES or it.islower()]
            others.append("\n".join([f"        {word}:*)", "            case $COMP_CWORD in", *arms, "            esac", "            ;;"]))
    return BASH.format(
        note=NOTE, values="\n".join(values), dashed=" ".join(words.dashed), commands=" ".join(words.options), others="\n".join(others),
        first=" ".join([*words.options, *words.plain]),
        options="\n".join(f'        {word}:-*) words="{" ".join(options)}" ;;' for word, options in words.options.items()))


def quoted(text):
    """A text as a word of a shell."""
    return "'" + text.replace("'", "'\\''") + "'"


def zsh(words):
    arms = []
    for command in words.commands:
        said = said_of(words)[command.word]
        named = [it.long for it in command.options if it.name in ("Opt::File", "Opt::Effective") or it.name.startswith("Opt::Place")]
        lines = [zsh_option(words, command, option, said, named) for option in command.options]
        arms.append((command.word, [line for group in lines for line in group]))
    behind = {word: [zsh_operand(words, at, it) for at, it in enumerate(follow, 1)] for word, follow in calls(words)}
    arms += [(word, []) for word in words.plain]
    return ZSH.format(
        note=NOTE,
        commands="\n".join(f"        {quoted(f'{word}:{text}')}" for word, text in summaries(words).items()),
        plain="\n".join(f"        {quoted(f'{word}:without options: {call}')}" for word, call in words.plain.items()),
        words="\n".join(" \\\n                ".join([f"        {word})\n            _arguments", *lines, *behind[word]]) + "\n            ;;"
                        for word, lines in arms if lines or behind[word]))


def zsh_option(words, command, option, said, named):
    """What _arguments is told of an option."""
    for word in [it for it in option.words() if it.startswith("--")]:
        letters = [f"-{option.letter}"] if option.letter else []
        others = set()
        if option.long in named:
            others = {it for other in command.options if other.long in named for it in other.words()}
        elif option.long == "includes":
            others = set(option.words())
        elif letters:
            others = {word, *letters}
        others |= {it for it in words.excluded.get(word, ()) if it in words.options[command.word]}
        before = f"({' '.join(sorted(others))})" if others else ""
        if option.long == "help":
            before = "(- *)"
        value = ""
        if option.takes_word:
            listed = words.values.get(option.long, [])
            value = ":" + option.long + ":" + ("_files" if option.long == "file" else "(" + " ".join(it.replace(":", "\\:") for it in listed) + ")" if listed else "")
        text = "[" + said[word].replace("[", "\\[").replace("]", "\\]") + "]" + value
        spelled = f"{word}=" if option.takes_word else word
        if letters:
            letter = letters[0] + "+" if option.takes_word else letters[0]
            yield f"{quoted(before)}{{{letter},{spelled}}}{quoted(text)}"
        else:
            yield quoted(before + spelled + text)


def zsh_operand(words, at, word):
    if word.endswith("..."):
        return "'*:file:_files'"
    if word in FILES:
        return f"'{at}:file:_files'"
    if word == "COMMAND":
        return f"'{at}:command:({' '.join(words.options)})'"
    return f"'{at}:command:({word})'" if word.islower() else f"'{at}:{word.lower()}:'"


def fish(words):
    lines = []
    for word, text in summaries(words).items():
        lines.append(f"-n '__gixcfg_has 1' -a {word} -d {fish_quoted(text)}")
    for word, call in words.plain.items():
        lines.append(f"-n '__gixcfg_has 1' -a {word} -d {fish_quoted(f'without options: {call}')}")
    lines += ["-n '__gixcfg_has 1' -l version -d 'print the version'", "-n '__gixcfg_has 1' -s h -l help -d 'list the commands'"]
    told, said = {}, said_of(words)
    for command in words.commands:
        for option in command.options:
            for word in [it for it in option.words() if it.startswith("--")]:
                told.setdefault((word, option, said[command.word][word]), []).append(command.word)
    for (word, option, text), commands in told.items():
        listed = words.values.get(option.long)
        value = " -rF" if option.long == "file" else "" if not option.takes_word else f" -xa '{' '.join(listed)}'" if listed else " -x"
        letter = f" -s {option.letter}" if option.letter and word == f"--{option.long}" else ""
        lines.append(f"-n '__gixcfg_is {' '.join(commands)}'{letter} -l {word[2:]}{value} -d {fish_quoted(text)}")
    for word, follow in calls(words):
        if follow and all(it in FILES for it in follow):
            lines.append(f"-n '__gixcfg_is {word}' -F")
            continue
        for at, it in enumerate(follow, 2):
            if it in FILES:
                lines.append(f"-n '__gixcfg_is {word}; and __gixcfg_has {at}' -F")
            elif it.islower() or it == "COMMAND":
                lines.append(f"-n '__gixcfg_is {word}; and __gixcfg_has {at}' -a '{it if it.islower() else ' '.join(words.options)}'")
    return FISH.format(note=NOTE, lines="\n".join(f"complete -c gixcfg {line}" for line in lines))


def fish_quoted(text):
    return "'" + text.replace("\\", "\\\\").replace("'", "\\'") + "'"
