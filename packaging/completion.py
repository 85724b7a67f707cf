"""Completion for bash, zsh and fish, of what a program says of itself."""

FILES = ("FILE",)
HOSTS = ("HOST", "HOST:PORT")


def all_options(command):
    return [name for option in command.options for name in option.names()]


def of_value(command, names):
    """The options of a command whose value is one of these."""
    return [option.long for option in command.options if option.value in names]


def bash_case(name, command):
    """What may stand behind a command, as a branch of the function."""
    files, hosts = of_value(command, FILES), of_value(command, HOSTS)
    others = [option.long for option in command.options if option.value and option.long not in files + hosts]
    yield f"        {name})"
    yield '            case "$before" in'
    if files:
        yield f"                {'|'.join(files)}) _uecp_files; return ;;"
    if hosts:
        yield f'                {"|".join(hosts)}) mapfile -t COMPREPLY < <(compgen -A hostname -- "$word"); return ;;'
    if others:
        yield f"                {'|'.join(others)}) return ;;"
    yield "            esac"
    yield f'            options="{" ".join(all_options(command))}"'
    if any(value in FILES for value, _ in command.arguments):
        yield '            [[ $word == -* ]] || { _uecp_files; return; }'
    yield "            ;;"


def bash(program):
    names = " ".join(name for name, _ in program.commands)
    lines = [
        f"# bash completion of {program.name}, made by packaging/generate",
        "",
        "_uecp_files() {",
        "    compopt -o filenames",
        '    mapfile -t COMPREPLY < <(compgen -f -- "$word")',
        "}",
        "",
        "_uecp() {",
        '    local word="${COMP_WORDS[COMP_CWORD]}" before="${COMP_WORDS[COMP_CWORD - 1]}" options=""',
        '    [[ $before == = ]] && before="${COMP_WORDS[COMP_CWORD - 2]}"',
        "    COMPREPLY=()",
        "    if ((COMP_CWORD == 1)); then",
        f'        mapfile -t COMPREPLY < <(compgen -W "{names} {" ".join(all_options(program.whole))}" -- "$word")',
        "        return",
        "    fi",
        '    case "${COMP_WORDS[1]}" in',
        "        help)",
        f'            ((COMP_CWORD == 2)) && mapfile -t COMPREPLY < <(compgen -W "{names}" -- "$word")',
        "            return",
        "            ;;",
    ]
    for name, command in program.each.items():
        lines += bash_case(name, command)
    lines += ["    esac", '    mapfile -t COMPREPLY < <(compgen -W "$options" -- "$word")', "}", "", "complete -F _uecp uecp"]
    return "\n".join(lines) + "\n"


def zsh_text(text):
    """Text within the quotes and brackets of a specification."""
    return text.replace("\\", "\\\\").replace("[", "\\[").replace("]", "\\]").replace(":", "\\:").replace("'", "'\\''")


def zsh_action(value):
    return "_files" if value in FILES else "_hosts" if value in HOSTS else " "


def zsh_option(option):
    """An option's specification; it may stand once, and leaves out its other name."""
    value = "=" if option.value else ""
    behind = f":{zsh_text(option.value)}:{zsh_action(option.value)}" if option.value else ""
    if option.short:
        return f"'({option.short} {option.long})'{{{option.short},{option.long}}}'[{zsh_text(option.text)}]{behind}'"
    return f"'{option.long}{value}[{zsh_text(option.text)}]{behind}'"


def zsh(program):
    lines = ["#compdef uecp", f"# zsh completion of {program.name}, made by packaging/generate", "", "_uecp_commands() {", "    local -a commands=("]
    lines += [f"        '{name}:{zsh_text(text)}'" for name, text in program.commands]
    lines += ["    )", "    _describe -t commands command commands", "}", "", "_uecp() {"]
    lines += ["    local curcontext=$curcontext state line", "    typeset -A opt_args", "    _arguments -C \\"]
    lines += [f"        {zsh_option(option)} \\" for option in program.whole.options]
    lines += ["        '1:command:_uecp_commands' \\", "        '*::word:->words'", "    [[ $state == words ]] || return", "    case $line[1] in"]
    lines += ["        help) _arguments '1:command:_uecp_commands' ;;"]
    for name, command in program.each.items():
        words = [zsh_option(option) for option in command.options]
        words += [f"'{place}:{zsh_text(value)}:{zsh_action(value)}'" for place, (value, _) in enumerate(command.arguments, 1)]
        lines += [f"        {name})", "            _arguments \\", *(f"                {word} \\" for word in words[:-1]), f"                {words[-1]}", "            ;;"]
    lines += ["    esac", "}", "", '_uecp "$@"']
    return "\n".join(lines) + "\n"


def fish_text(text):
    return "'" + text.replace("\\", "\\\\").replace("'", "\\'") + "'"


def fish_option(option, condition):
    short = f" -s {option.short[1:]}" if option.short else ""
    value = "" if not option.value else " -r -F" if option.value in FILES else " -x -a '(__fish_print_hostnames)'" if option.value in HOSTS else " -x"
    return f"complete -c uecp -n {fish_text(condition)}{short} -l {option.long[2:]}{value} -d {fish_text(option.text)}"


def fish(program):
    lines = [f"# fish completion of {program.name}, made by packaging/generate", "complete -c uecp -f"]
    lines += [fish_option(option, "__fish_use_subcommand") for option in program.whole.options]
    for name, text in program.commands:
        lines.append(f"complete -c uecp -n __fish_use_subcommand -a {name} -d {fish_text(text)}")
        lines.append(f"complete -c uecp -n '__fish_seen_subcommand_from help' -a {name} -d {fish_text(text)}")
    for name, command in program.each.items():
        is_in = f"test (count (commandline -opc)) -ge 2; and test (commandline -opc)[2] = {name}"
        lines += [fish_option(option, is_in) for option in command.options]
        if any(value in FILES for value, _ in command.arguments):
            lines.append(f"complete -c uecp -n {fish_text(is_in)} -F")
    return "\n".join(lines) + "\n"
