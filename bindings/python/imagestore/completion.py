"""Completion for bash: commands, their options, and files. `source <(imagestore completion)` has it."""

SCRIPT = """_imagestore() {{
    local word=${{COMP_WORDS[COMP_CWORD]}} known='{top}' i
    for ((i = 1; i < COMP_CWORD; i++)); do
        case ${{COMP_WORDS[i]}} in
{commands}
        esac
    done
    COMPREPLY=($(compgen -W "$known" -- "$word"))
}}
complete -o default -F _imagestore imagestore"""


def options(parser):
    return [option for action in parser._actions for option in action.option_strings if option.startswith("--")]


def script(parser):
    """The script, from the commands and options that the parser knows."""
    commands = next(action.choices for action in parser._actions if action.choices and not action.option_strings)
    cases = [f"            {name}) known='{' '.join(options(one))}' ;;" for name, one in commands.items()]
    return SCRIPT.format(top=" ".join([*commands, *options(parser)]), commands="\n".join(cases))
