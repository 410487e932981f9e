//! What was not looked at, where someone may believe that it was.
use crate::input::Input;
use crate::output::Out;
use crate::words::{shown, Quoted};

/// Of a file that is a repository's own: the loose references beside it.
pub fn loose_references(input: &Input, out: &Out) {
    let Some(path) = input.real_path() else { return };
    let refs = path.with_file_name("refs");
    if path.file_name().is_some_and(|name| name == "packed-refs") && refs.is_dir() {
        out.note(format_args!(
            "{}: the loose references below {} were not looked at: a name may stand there, and for Git it holds",
            input.name,
            shown(refs.as_os_str())
        ));
    }
}

/// Of a name that is absent as it stands: the same below `refs/`.
pub fn full_name(name: &[u8], out: &Out) {
    if !name.starts_with(b"refs/") {
        let full = [b"refs/", name].concat();
        out.note(format_args!("{} is absent as it stands; {} was not looked up", Quoted(name), Quoted(&full)));
    }
}
