//! Completions for shells, from the table of commands and that of options.

use std::fmt::Write;

use crate::commands::Command;
use crate::options::{self, Choice, Value};

const ROOM: &str = "a string has room";

/// The options of a command, with that for help.
fn choices(command: &Command) -> impl Iterator<Item = &'static Choice> + '_ {
    let names = command.options.iter().chain(&["--help"]);
    names.map(|name| options::named(name).expect("a command takes options of the table"))
}

/// The words of a command that are no files, as `bash|zsh|fish` in its usage.
fn words(command: &Command) -> Vec<&'static str> {
    match command.name {
        "completions" => vec!["bash", "zsh", "fish"],
        _ => Vec::new(),
    }
}

/// The long and the short names of options.
fn flags(command: &Command) -> String {
    let flag = |choice: &Choice| match choice.short {
        Some(letter) => format!("{} -{letter}", choice.name),
        None => choice.name.to_string(),
    };
    choices(command).map(flag).collect::<Vec<_>>().join(" ")
}

fn names(commands: &[&Command]) -> String {
    commands.iter().map(|command| command.name).collect::<Vec<_>>().join(" ")
}

pub fn bash(commands: &[&Command]) -> String {
    let mut script = format!(
        "# bash completion for robequarry, written by `robequarry completions bash`\n\
         _robequarry() {{\n    \
             local word=${{COMP_WORDS[COMP_CWORD]}} before=${{COMP_WORDS[COMP_CWORD - 1]}} options= words=\n    \
             COMPREPLY=()\n    \
             if [ \"$COMP_CWORD\" -eq 1 ]; then\n        \
                 COMPREPLY=($(compgen -W '{} help --help --version' -- \"$word\"))\n        \
                 return\n    \
             fi\n    \
             case $before in\n",
        names(commands)
    );
    for choice in options::OPTIONS {
        match choice.value {
            Value::OneOf(values) => {
                let values = values.join(" ");
                let reply = format!("COMPREPLY=($(compgen -W '{values}' -- \"$word\")); return ;;");
                writeln!(script, "        {}) {reply}", choice.name).expect(ROOM);
            }
            Value::Number => writeln!(script, "        {}) return ;;", either(choice)).expect(ROOM),
            Value::File => {
                let reply = "COMPREPLY=($(compgen -f -- \"$word\")); return ;;";
                writeln!(script, "        {}) {reply}", either(choice)).expect(ROOM);
            }
            Value::None => {}
        }
    }
    script += "    esac\n    case ${COMP_WORDS[1]} in\n";
    for command in commands {
        let (flags, words) = (flags(command), words(command).join(" "));
        writeln!(script, "        {}) options='{flags}' words='{words}' ;;", command.name).expect(ROOM);
    }
    script += "    esac\n    case $word in\n        \
               -*) COMPREPLY=($(compgen -W \"$options\" -- \"$word\")) ;;\n        \
               *) COMPREPLY=($(compgen -W \"$words\" -- \"$word\") $(compgen -f -- \"$word\")) ;;\n    \
               esac\n}\ncomplete -o filenames -F _robequarry robequarry\n";
    script
}

/// The names of an option as a pattern of a shell.
fn either(choice: &Choice) -> String {
    choice.short.map_or(choice.name.to_string(), |letter| format!("{} | -{letter}", choice.name))
}

/// Text within single quotes of a shell.
fn quoted(text: &str) -> String {
    text.replace('\'', "'\\''")
}

pub fn zsh(commands: &[&Command]) -> String {
    let mut script = String::from(
        "#compdef robequarry\n# zsh completion for robequarry, written by `robequarry completions zsh`\n\
         _robequarry() {\n    local -a commands\n    commands=(\n",
    );
    for command in commands {
        writeln!(script, "        '{}:{}'", command.name, quoted(&command.summary.replace(':', "\\:"))).expect(ROOM);
    }
    script += "    )\n    if (( CURRENT == 2 )); then\n        _describe command commands\n        return\n    fi\n    \
               local command=$words[2]\n    shift words\n    (( CURRENT-- ))\n    case $command in\n";
    for command in commands {
        writeln!(script, "        {})\n            _arguments \\", command.name).expect(ROOM);
        for choice in choices(command) {
            writeln!(script, "                {} \\", zsh_option(choice)).expect(ROOM);
        }
        let rest = match &words(command)[..] {
            [] => "'*:file:_files'".to_string(),
            words => format!("'1:word:({})'", words.join(" ")),
        };
        writeln!(script, "                {rest}\n            ;;").expect(ROOM);
    }
    script += "    esac\n}\n_robequarry \"$@\"\n";
    script
}

/// An option as `_arguments` takes it.
fn zsh_option(choice: &Choice) -> String {
    let summary = quoted(choice.summary).replace('[', "\\[").replace(']', "\\]").replace(':', "\\:").replace('`', "");
    let value = match choice.value {
        Value::None => String::new(),
        Value::File => ":file:_files".to_string(),
        Value::Number => ":number:".to_string(),
        Value::OneOf(words) => format!(":word:({})", words.join(" ")),
    };
    match choice.short {
        Some(letter) => format!("{{-{letter},{}}}'[{summary}]{value}'", choice.name),
        None => format!("'{}[{summary}]{value}'", choice.name),
    }
}

pub fn fish(commands: &[&Command]) -> String {
    let mut script = String::from("# fish completion for robequarry, written by `robequarry completions fish`\n");
    let line = |script: &mut String, rest: String| writeln!(script, "complete -c robequarry {rest}").expect(ROOM);
    line(&mut script, "-n __fish_use_subcommand -f -l version -d 'the program and its library'".to_string());
    for command in commands {
        let summary = quoted(command.summary);
        line(&mut script, format!("-n __fish_use_subcommand -f -a {} -d '{summary}'", command.name));
        let seen = format!("-n '__fish_seen_subcommand_from {}'", command.name);
        for choice in choices(command) {
            let short = choice.short.map_or(String::new(), |letter| format!(" -s {letter}"));
            let value = match choice.value {
                Value::None => String::new(),
                Value::File => " -r -F".to_string(),
                Value::Number => " -x".to_string(),
                Value::OneOf(words) => format!(" -x -a '{}'", words.join(" ")),
            };
            let long = choice.name.trim_start_matches('-');
            line(&mut script, format!("{seen}{short} -l {long}{value} -d '{}'", quoted(choice.summary)));
        }
        if let words @ [_, ..] = &words(command)[..] {
            line(&mut script, format!("{seen} -f -a '{}'", words.join(" ")));
        }
    }
    script
}
