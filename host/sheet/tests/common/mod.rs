use std::process::Command;

/// The file of a Debian package whose path ends so.
pub fn installed(package: &str, end: &str) -> String {
    let list = Command::new("dpkg").args(["-L", package]).output().expect("dpkg").stdout;
    let list = String::from_utf8(list).unwrap();
    list.lines().find(|path| path.ends_with(end)).expect("host/setup installs it").to_owned()
}

pub fn dejavu_sans() -> String {
    installed("fonts-dejavu-core", "/DejaVuSans.ttf")
}
