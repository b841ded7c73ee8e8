//! Where the definition files come from: `ROOM/specs/FILE.antt` in the folder
//! of the rooms.

use std::collections::HashMap;
use std::fs;
use std::path::{Path, PathBuf};

#[derive(Clone, Debug)]
pub struct Rooms {
    folder: PathBuf,
    pages: HashMap<String, String>,
    changes: Vec<Change>,
}

#[derive(Clone, Debug)]
struct Change {
    module: String,
    from: String,
    to: String,
}

impl Rooms {
    pub fn new(folder: &Path) -> Rooms {
        Rooms {
            folder: folder.to_path_buf(),
            pages: HashMap::new(),
            changes: Vec::new(),
        }
    }

    /// The rooms of this repository.
    pub fn ours() -> Rooms {
        Rooms::new(&Path::new(env!("CARGO_MANIFEST_DIR")).join("../../crates"))
    }

    /// The same rooms with one more module, `room/File`, that has no file.
    pub fn with(mut self, module: &str, text: &str) -> Rooms {
        self.pages.insert(module.to_string(), text.to_string());
        self
    }

    /// The same rooms with a text of one module, `room/File`, read as another:
    /// to see that a mistake there would be noticed.
    pub fn changed(mut self, module: &str, from: &str, to: &str) -> Rooms {
        self.changes.push(Change {
            module: module.to_string(),
            from: from.to_string(),
            to: to.to_string(),
        });
        self
    }

    pub fn path(&self, room: &str, file: &str) -> PathBuf {
        let specs = self.folder.join(room).join("specs");
        specs.join(format!("{file}.antt"))
    }

    pub fn text(&self, room: &str, file: &str) -> Result<String, String> {
        let module = format!("{room}/{file}");
        let mut text = match self.pages.get(&module) {
            Some(text) => text.clone(),
            None => fs::read_to_string(self.path(room, file)).map_err(|fault| fault.to_string())?,
        };
        for change in self.changes.iter().filter(|c| c.module == module) {
            // A change that finds nothing to change would go unnoticed.
            if text.matches(&change.from).count() != 1 {
                return Err(format!("not there exactly once: {}", change.from));
            }
            text = text.replace(&change.from, &change.to);
        }
        Ok(text)
    }
}
