//! Completions of command lines, for three shells, by the table of the options.

use crate::args::{Command, Opt, Shell};
use crate::help::about;

/// What a shell reads to complete the command lines of gx.
pub fn of(shell: Shell) -> String {
    match shell {
        Shell::Bash => bash(),
        Shell::Zsh => zsh(),
        Shell::Fish => fish(),
    }
}

fn commands() -> Vec<&'static str> {
    let commands = Command::ALL.map(Command::word).into_iter();
    commands.chain(["help", "completions"]).collect()
}

fn bash() -> String {
    let mut cases = String::new();
    for command in Command::ALL {
        let options: Vec<&str> = command.options().map(|option| option.name).collect();
        cases.push_str(&format!(
            "        {}) options=\"{} --help\" ;;\n",
            command.word(),
            options.join(" ")
        ));
    }
    let mut values = String::new();
    for option in crate::args::OPTIONS
        .iter()
        .filter(|option| !option.words.is_empty())
    {
        values.push_str(&format!(
            "        {}) COMPREPLY=($(compgen -W \"{}\" -- \"$word\")); return ;;\n",
            option.name,
            option.words.join(" ")
        ));
    }
    format!(
        "# bash completion of gx\n_gx() {{\n    local word=${{COMP_WORDS[COMP_CWORD]}} before=${{COMP_WORDS[COMP_CWORD-1]}} options=\n    \
         if [ \"$COMP_CWORD\" = 1 ]; then\n        COMPREPLY=($(compgen -W \"{commands} --help --version\" -- \"$word\"))\n        return\n    fi\n    \
         case $before in\n{values}        completions) COMPREPLY=($(compgen -W \"bash zsh fish\" -- \"$word\")); return ;;\n        \
         help) COMPREPLY=($(compgen -W \"{commands}\" -- \"$word\")); return ;;\n    esac\n    \
         case ${{COMP_WORDS[1]}} in\n{cases}    esac\n    case $word in\n        -*) COMPREPLY=($(compgen -W \"$options\" -- \"$word\")) ;;\n        \
         *) COMPREPLY=($(compgen -f -- \"$word\")) ;;\n    esac\n}}\ncomplete -o filenames -F _gx gx\n",
        commands = commands().join(" ")
    )
}

/// The text between single quotes of zsh, where a description ends at these signs.
fn in_zsh(text: &str) -> String {
    let text = text.replace('\'', "'\\''");
    let text = text.replace('[', "\\[").replace(']', "\\]");
    text.replace(':', "\\:")
}

fn zsh() -> String {
    let mut out = String::from("#compdef gx\n_gx() {\n    local -a commands\n    commands=(\n");
    for command in Command::ALL {
        out.push_str(&format!(
            "        '{}:{}'\n",
            command.word(),
            in_zsh(about(command).1)
        ));
    }
    out.push_str("        'help:the help of a command'\n        'completions:for bash, zsh or fish'\n    )\n");
    out.push_str("    if (( CURRENT == 2 )); then\n        if [[ $PREFIX == -* ]]; then\n            compadd -- --help --version\n        else\n            \
                  _describe command commands\n        fi\n        return\n    fi\n    case $words[2] in\n");
    for command in Command::ALL {
        out.push_str(&format!("        {}) _arguments", command.word()));
        for option in command.options() {
            out.push_str(&format!(" \\\n            {}", zsh_option(command, option)));
        }
        out.push_str(" \\\n            '(-h --help)'{-h,--help}'[this help]'");
        out.push_str(" \\\n            '*:file:_files' ;;\n");
    }
    out.push_str("        help) _describe command commands ;;\n        completions) compadd bash zsh fish ;;\n    esac\n}\n");
    out.push_str("if [ \"$funcstack[1]\" = _gx ]; then _gx \"$@\"; else compdef _gx gx; fi\n");
    out
}

/// An option with its letter, its help, and its value: one of its words, or a file.
fn zsh_option(command: Command, option: &Opt) -> String {
    let (name, about) = (option.name, in_zsh(option.about_of(command)));
    let names = match option.short {
        Some(letter) => format!("'(-{letter} {name})'{{-{letter},{name}}}'"),
        None => format!("'{name}"),
    };
    match (option.value, option.words) {
        (None, _) => format!("{names}[{about}]'"),
        (Some(value), []) => format!("{names}[{about}]:{value}:_files'"),
        (Some(value), words) => {
            let words = words.join(" ");
            format!("{names}[{about}]:{value}:({words})'")
        }
    }
}

/// The text between single quotes of fish.
fn in_fish(text: &str) -> String {
    text.replace('\\', "\\\\").replace('\'', "\\'")
}

fn fish() -> String {
    let words = commands().join(" ");
    let mut out = String::from("# fish completion of gx\n");
    let first = format!("not __fish_seen_subcommand_from {words}");
    let mut command = |word: &str, about: &str| {
        let about = in_fish(about);
        out.push_str(&format!(
            "complete -c gx -f -n '{first}' -a {word} -d '{about}'\n"
        ));
    };
    for each in Command::ALL {
        command(each.word(), about(each).1);
    }
    command("help", "the help of a command");
    command("completions", "for bash, zsh or fish");
    out.push_str(&format!(
        "complete -c gx -f -n '{first}' -s V -l version -d 'the versions'\n\
         complete -c gx -s h -l help -d 'this help'\n\
         complete -c gx -f -n '__fish_seen_subcommand_from completions' -a 'bash zsh fish'\n\
         complete -c gx -f -n '__fish_seen_subcommand_from help' -a '{words}'\n"
    ));
    out.extend(crate::args::OPTIONS.iter().map(fish_option));
    out
}

fn fish_option(option: &Opt) -> String {
    let of: Vec<&str> = option.of.iter().map(|command| command.word()).collect();
    let short = option
        .short
        .map_or(String::new(), |letter| format!(" -s {letter}"));
    let value = match (option.value, option.words) {
        (None, _) => String::new(),
        (Some(_), []) => " -r".into(),
        (Some(_), words) => format!(" -x -a '{}'", words.join(" ")),
    };
    format!(
        "complete -c gx -n '__fish_seen_subcommand_from {}' -l {}{short}{value} -d '{}'\n",
        of.join(" "),
        option.name.trim_start_matches('-'),
        in_fish(option.about)
    )
}
