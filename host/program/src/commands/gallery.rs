use std::fs;
use std::path::Path;

use super::{plain, Command, Console, Failure, Status};
use crate::arguments::Arguments;
use crate::gallery::gallery;
use crate::verdict::count;

pub const COMMAND: Command = Command {
    name: "gallery",
    usage: "gallery FOLDER",
    summary: "draw the contract's specimens and the blocks for training",
    help: "\
Writes into a folder a picture of each specimen of the contract and of each block for training, and sheets of them. The
pictures in docs/pictures/ are made by `robequarry gallery docs/pictures`.",
    statuses: &[(0, "the pictures were written"), (2, "something is wrong with the call, or a picture cannot be written")],
    options: &[],
    run,
};

fn run(arguments: &Arguments, console: &mut Console) -> Result<Status, Failure> {
    let [folder] = plain(arguments, "gallery takes one folder")?;
    let failed = |path: &Path, error| Failure::File(path.to_path_buf(), format!("cannot be written: {error}"));
    fs::create_dir_all(folder).map_err(|error| failed(folder, error))?;
    let pictures = gallery();
    for (name, svg) in &pictures {
        let path = folder.join(name);
        fs::write(&path, svg).map_err(|error| failed(&path, error))?;
    }
    console.line(format_args!("{} in {}", count(pictures.len(), "picture"), folder.display()))?;
    Ok(Status::Taken)
}
