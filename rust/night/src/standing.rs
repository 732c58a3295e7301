//! Where the installed programs stand: `bin` has those that are started, `lib/luffgravel` the proved ones themselves.

use std::env;
use std::path::{Path, PathBuf};

use crate::journal::Origin;
use crate::sum::check_sum;

/// Where this program stands, as far as that can be told.
pub fn this_program() -> Option<PathBuf> {
    // The system says it through /proc. A root without that leaves how the program was called.
    env::current_exe().ok().or_else(|| called(Path::new(&env::args_os().next()?)))
}

/// A program that was called so: by its path, or by its name and found on PATH.
fn called(name: &Path) -> Option<PathBuf> {
    if name.components().count() > 1 {
        return Some(name.to_path_buf());
    }
    let folders = env::var_os("PATH")?;
    let found = env::split_paths(&folders).map(|folder| folder.join(name)).find(|path| path.is_file());
    found
}

/// The program of this name beside this one.
pub fn beside(name: &str) -> Option<PathBuf> {
    Some(this_program()?.with_file_name(name))
}

/// The proved program of the same name as this one, which stands in `bin`.
pub fn proved(this: &Path) -> Option<PathBuf> {
    Some(this.parent()?.join("../lib/luffgravel").join(this.file_name()?))
}

/// How many requests of document 02 the shift program has: what its script can say.
pub const SCRIPT: u32 = 7;

/// The line that says the version of an installed program.
pub fn version(name: &str) -> String {
    format!("{name} (Luffgravel) {}, with {SCRIPT} requests\n", env!("CARGO_PKG_VERSION"))
}

/// What a journal says of the program that it is begun with. The program that is started first from `bin` only looks at
/// the stack: the proved one behind it counts.
pub fn origin(program: &Path) -> Result<Origin, String> {
    let behind = proved(program).filter(|path| path.is_file());
    let path = behind.as_deref().unwrap_or(program);
    let bytes = std::fs::read(path).map_err(|error| format!("the program {}: {error}", path.display()))?;
    Ok(Origin { script: SCRIPT, program: check_sum(&bytes) })
}

#[cfg(test)]
mod tests {
    use super::*;

    #[test]
    fn programs_are_found_by_their_path_or_on_path() {
        assert_eq!(called(Path::new("./bin/shift")), Some("./bin/shift".into()));
        assert!(called(Path::new("sh")).is_some_and(|path| path.is_absolute() && path.ends_with("sh")));
        assert_eq!(called(Path::new("no-such-program")), None);
        assert_eq!(proved(Path::new("/x/bin/shift")), Some("/x/bin/../lib/luffgravel/shift".into()));
    }
}
