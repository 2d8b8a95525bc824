use super::{plain, Command, Console, Failure, Status, COMMANDS};
use crate::arguments::Arguments;
use crate::shells;

pub const COMMAND: Command = Command {
    name: "completions",
    usage: "completions bash|zsh|fish",
    summary: "what a shell needs to complete calls of this program",
    help: "\
Writes the completions of commands, options and their values for a shell.

    robequarry completions bash > ~/.local/share/bash-completion/completions/robequarry
    robequarry completions zsh > ~/.zfunc/_robequarry
    robequarry completions fish > ~/.config/fish/completions/robequarry.fish",
    statuses: &[(0, "they were written"), (2, "something is wrong with the call")],
    options: &[],
    run,
};

fn run(arguments: &Arguments, console: &mut Console) -> Result<Status, Failure> {
    let [shell] = plain(arguments, "completions takes the name of a shell")?;
    let write = match shell.to_str() {
        Some("bash") => shells::bash,
        Some("zsh") => shells::zsh,
        Some("fish") => shells::fish,
        _ => return Err(Failure::Call(format!("the shells are bash, zsh and fish, not `{}`", shell.display()))),
    };
    console.bytes(write(COMMANDS).as_bytes())?;
    Ok(Status::Taken)
}
