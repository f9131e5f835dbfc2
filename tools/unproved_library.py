"""Builds the C library of unproved sources, in a minute or two: the exports of icu_locale_c, as tools/surface_build.py builds
a program.

A program that can call each export is compiled, so that none is left out. Its module is kept; its main is hidden, and each
export gets the name by which C calls it. Nothing of the library is proved."""
import os
import pathlib
import re
import shutil
import subprocess

from surface_build import FLAGS, compiled
from unproved import crates

NAME = "icu_locale_c"
EXPORT = re.compile(r'pub extern "C" fn (\w+)\((.*?)\)(?: -> \w+)?\n', re.S)
# What the program gives for an argument of each type. A second argument of one type is another variable.
GIVEN = {
    "Global": ["alloc"] * 2, "u32": ["number"] * 2, "usize": ["count"] * 2, "u8": ["byte"] * 2, "&[u8]": ["&text[..]"] * 3,
    "&mut [u8]": ["&mut buffer[..]"], "&mut usize": ["&mut needed", "&mut more"], "&mut u8": ["&mut same"],
    "&mut i8": ["&mut order"], "&mut u32": ["&mut kinds"], "&mut Handle": ["handle", "handle_2"], "&mut Lent": ["lent", "lent_2"],
}
MAIN = """
use iloc_handles::{{Handle, Lent}};
use std::rt::Env;

fn main(rt: HostRuntime) {{
    let alloc = rt.alloc();
    let mut text = [0u8; 64];
    let count = match rt.var("CALL", &mut text) {{ Ok(count) => count, Err(_) => 0 }};
    let (number, byte) = (text[0] as u32, text[1]);
    let (mut buffer, mut needed, mut more, mut same, mut order) = ([0u8; 64], 0usize, 0usize, 0u8, 0i8);
    let mut kinds = 0u32;
    let mut held = [0u64; 4];
    let place = held.as_mut_ptr();
    let (handle, handle_2) = unsafe {{ (&mut *(place as *mut Handle), &mut *(place.add(1) as *mut Handle)) }};
    let (lent, lent_2) = unsafe {{ (&mut *(place.add(2) as *mut Lent), &mut *(place.add(3) as *mut Lent)) }};
{calls}
}}
"""


def arguments(types):
    left = {it: [*given] for it, given in GIVEN.items()}
    return ", ".join(left[it].pop(0) for it in types)


def calls(folder):
    """Returns a line for each export of the crate's sources, which calls it if its number is asked for."""
    lines = []
    for path in sorted(pathlib.Path(folder).glob("*.rt")):
        module = "" if path.stem == "main" else f"{path.stem}::"
        for name, given in EXPORT.findall(path.read_text(encoding="utf-8")):
            types = [" ".join(it.split(":", 1)[1].split()) for it in given.replace("\n", " ").split(",") if it.strip()]
            lines.append(f"    if number == {len(lines)} {{ let _ = {module}{name}({arguments(types)}); }}")
    return "\n".join(lines)


def exported(line):
    """Returns the line of a module with the exports under their C names, and with main hidden."""
    line = re.sub(r'@"unproved_c::(?:\w+::)?(icu_locale_\w+)"', r"@\1", line)
    if re.match(r"define internal .*@icu_locale_", line):
        return line.replace("define internal ", "define ").replace(" alwaysinline", "")
    return line.replace("define i32", "define internal i32") if line.startswith("define i32 @main()") else line


def archive(room):
    """Builds the library in this folder, which must not be below the checkout, and returns the path of the archive."""
    top = crates()[NAME]
    shutil.copytree(f"{top.folder}/src", f"{room}/src")
    main = pathlib.Path(room, "src", "main.rt")
    os.rename(f"{room}/src/lib.rt", main)
    main.write_text(main.read_text(encoding="utf-8") + MAIN.format(calls=calls(f"{room}/src")), encoding="utf-8")
    flags = ["-fPIC" if it == "-fPIE" else it for it in FLAGS]
    compiled("unproved_c", str(main), top, lambda lines: map(exported, lines), (), flags)
    subprocess.run(["ar", "rcs", f"{room}/lib{NAME}.a", f"{room}/module.o"], check=True)
    return f"{room}/lib{NAME}.a"

