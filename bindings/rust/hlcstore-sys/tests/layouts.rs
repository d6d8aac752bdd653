//! Compares the structs with those of the header, as the C compiler lays them out.

use hlcstore_sys::{hlc_entry, hlc_node, hlc_output, hlc_place, hlc_restoring, hlc_saving, hlc_store};
use std::fs;
use std::path::Path;
use std::process::Command;

/// Adds to a C program what prints the size, the alignment and the places of the fields of a struct, and to a text what
/// that must print.
macro_rules! compare {
    ($program:ident, $expected:ident, $name:ident { $($field:ident),* }) => {
        // This does not compile unless all fields are listed.
        let _ = |all: $name| { let $name { $($field: _),* } = all; };
        $program.push_str(&format!(
            "printf(\"{0} %zu %zu\\n\", sizeof({0}), _Alignof({0}));\n",
            stringify!($name)
        ));
        $expected.push_str(&format!("{} {} {}\n", stringify!($name), size_of::<$name>(), align_of::<$name>()));
        $(
            $program.push_str(&format!(
                "printf(\"{1} %zu\\n\", offsetof({0}, {1}));\n",
                stringify!($name), stringify!($field)
            ));
            $expected.push_str(&format!("{} {}\n", stringify!($field), std::mem::offset_of!($name, $field)));
        )*
    };
}

#[test]
fn structs_are_laid_out_as_in_c() {
    let mut program = String::from("#include \"hlcstore.h\"\n#include <stdio.h>\nint main(void)\n{\n");
    let mut expected = String::new();
    compare!(program, expected, hlc_store { at, live });
    compare!(program, expected, hlc_output { at, live });
    compare!(program, expected, hlc_node { id, last, next, retired });
    compare!(program, expected, hlc_entry { node, deletes, number, stamp, key_at, key_len, value_at, value_len });
    compare!(program, expected, hlc_place { at, len });
    compare!(program, expected, hlc_restoring { at, live });
    compare!(program, expected, hlc_saving { at, live });
    program.push_str("return 0;\n}\n");
    let structs = include_str!("../src/header.rs").matches("pub struct").count();
    assert_eq!(expected.matches("hlc_").count(), structs, "a struct is not compared");

    let folder = Path::new(env!("CARGO_TARGET_TMPDIR"));
    let (source, binary) = (folder.join("layouts.c"), folder.join("layouts"));
    fs::write(&source, program).unwrap();
    let include = Path::new(env!("CARGO_MANIFEST_DIR")).join("../../../include");
    let compiler = std::env::var("CC").unwrap_or_else(|_| "cc".into());
    let Ok(status) = Command::new(compiler).arg("-I").arg(include).arg("-o").arg(&binary).arg(&source).status() else {
        eprintln!("left out: no C compiler");
        return;
    };
    assert!(status.success());
    let output = Command::new(&binary).output().unwrap();
    assert_eq!(String::from_utf8(output.stdout).unwrap(), expected);
}
