//! A browser without a window, where one is installed: it opens files for at most a minute each.

use crate::png::Image;
use crate::programs::run;
use std::fs;
use std::path::{Path, PathBuf};

pub struct Browser {
    program: &'static str,
    folder: PathBuf,
}

impl Browser {
    /// The browser that is installed, if any; what it keeps goes into a folder.
    pub fn find(folder: &Path) -> Option<Browser> {
        let paths = std::env::var_os("PATH")?;
        let installed = |program: &&str| std::env::split_paths(&paths).any(|path| path.join(program).exists());
        let program = ["chromium", "chromium-browser", "google-chrome"].into_iter().find(installed)?;
        Some(Browser { program, folder: folder.to_path_buf() })
    }

    /// A screenshot of a file in a window of this many pixels; none where the browser does not get so far.
    pub fn screenshot(&self, file: &Path, width: usize, height: usize) -> Option<Image> {
        let image = self.folder.join("screenshot.png");
        let _ = fs::remove_file(&image);
        self.open(file, &[format!("--screenshot={}", image.display()), format!("--window-size={width},{height}")]);
        Some(Image::read(&fs::read(image).ok()?))
    }

    /// A page as it is once its scripts have run.
    pub fn page(&self, file: &Path) -> String {
        self.open(file, &["--dump-dom".to_string(), "--allow-file-access-from-files".to_string()])
    }

    fn open(&self, file: &Path, words: &[String]) -> String {
        let mut all: Vec<String> = ["-k", "5", "60", self.program].map(String::from).to_vec();
        all.extend(["--headless", "--no-sandbox", "--disable-gpu", "--hide-scrollbars"].map(String::from));
        all.push(format!("--user-data-dir={}", self.folder.join("browser").display()));
        all.extend_from_slice(words);
        all.push(format!("file://{}", file.display()));
        run("timeout", &all).out
    }
}
