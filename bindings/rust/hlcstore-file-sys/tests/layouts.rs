//! Lets the C compiler compare the structs of the header with those of this crate.

use hlcstore_file_sys::{hlc_file_options, hlc_file_state};
use std::fs;
use std::path::Path;
use std::process::Command;

/// Adds to a C program that a struct has the size and the places of the fields that it has here.
macro_rules! compare {
    ($program:ident, $name:ident { $($field:ident),* }) => {
        // This does not compile unless all fields are listed.
        let _ = |all: $name| { let $name { $($field: _),* } = all; };
        $program += &format!("_Static_assert(sizeof({0}) == {1}, \"\");\n", stringify!($name), size_of::<$name>());
        $($program += &format!(
            "_Static_assert(offsetof({0}, {1}) == {2}, \"{1}\");\n",
            stringify!($name), stringify!($field), std::mem::offset_of!($name, $field)
        );)*
    };
}

#[test]
fn structs_are_laid_out_as_in_c() {
    let mut program = String::from("#include \"hlcstore_file.h\"\n#include <stddef.h>\n");
    compare!(program, hlc_file_options { size, flags, nodes, promise, group_microseconds, checkpoint_bytes });
    compare!(
        program,
        hlc_file_state {
            size,
            failure,
            sqlite,
            word,
            writes,
            created,
            damaged,
            applied,
            aside,
            place,
            checkpoint_place,
            log_bytes,
            clock,
            waiting,
            background,
            spare
        }
    );
    let source = Path::new(env!("CARGO_TARGET_TMPDIR")).join("file_layouts.c");
    fs::write(&source, program).unwrap();
    let bindings = Path::new(env!("CARGO_MANIFEST_DIR")).join("../..");
    let compiler = std::env::var("CC").unwrap_or_else(|_| "cc".into());
    let mut command = Command::new(compiler);
    command.arg("-fsyntax-only").arg("-I").arg(bindings.join("../include")).arg("-I").arg(bindings.join("file"));
    match command.arg(&source).status() {
        Ok(status) => assert!(status.success()),
        Err(_) => eprintln!("left out: no C compiler"),
    }
}
