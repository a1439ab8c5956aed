"""The archive of the press for C before it is proved: the kit lowers the library with the language's checks, and its compiler makes an archive of that.

Without a proof the kit lowers programs alone. So it is asked for a program in a folder of its own, which is the text of the library with a `main` behind
it that calls each export. Of the module that comes of it `main` is taken away, each export gets its name in C and the calling convention
of C, and the version tells that nothing was proved. What was made is kept in out/compiling/library/ under a sum of the code and the kit.
"""

import re
import shutil

from proving import compiled, sources
from seen import kit, program

ROOT = program.ROOT
FOLDER = compiled.FOLDER / "library"
EXPORT = re.compile(r'pub extern "C" fn (\w+)\((.*?)\) -> RombixelaAnswer', re.S)
GIVEN = {"Global": "alloc", "u64": "1", "&[u8]": "given", "&mut [u8]": "&mut room"}    # what `main` passes, by the type of a parameter
ANSWER = "ptr sret([24 x i8]) align 8"      # the answer's place in C, which is passed first
PROVED_TEXT, OTHER_TEXT = compiled.PROVED_TEXT.decode(), compiled.OTHER_TEXT.decode()


def exports_of(text):
    """The names of the functions that a library exports, each with the types of what it takes."""
    return {name: [part.split(":", 1)[1].strip() for part in takes.split(",") if part.strip()] for name, takes in EXPORT.findall(text)}


def with_main(text):
    """The text of a library as a program that calls each of its exports."""
    calls = "".join(f"    faults |= {name}({', '.join(GIVEN[one] for one in takes)}).fault;\n" for name, takes in exports_of(text).items())
    return (f"{text}\nfn main(rt: HostRuntime) -> std::process::ExitCode {{\n    let alloc = rt.alloc();\n    let given = b\"\";\n"
            f"    let mut room = [0u8; 8];\n    let mut faults = 0;\n{calls}    std::process::ExitCode::from(faults as u8)\n}}\n")


def furnish(folder):
    """Puts the crates into a folder, the library as a program. Gives the crate's folder, and the exports."""
    for name in sources.below(sources.rows_of(ROOT), sources.LIBRARY):
        shutil.copytree(ROOT / "crates" / name / "src", folder / "crates" / name / "src")
    lines = (ROOT / sources.LIST).read_text(encoding="utf-8").splitlines(keepends=True)
    kept = [line for line in lines if (folder / "crates" / line.split(":")[0].split(" ")[0]).is_dir()]
    (folder / sources.LIST).write_text("".join(line.replace(f" {sources.STATIC}:", ":") for line in kept), encoding="utf-8")
    crate = folder / "crates" / sources.LIBRARY
    text = (crate / "src/lib.rt").read_text(encoding="utf-8")
    (crate / "src/lib.rt").unlink()
    (crate / "src/main.rt").write_text(with_main(text), encoding="utf-8")
    return crate, list(exports_of(text))


def once(text, old, new):
    """A text with another in the place of one that stands in it once."""
    if text.count(old) != 1:
        raise compiled.NotCompiled(f"{old!r} stands in the module {text.count(old)} times")
    return text.replace(old, new)


def as_library(text, names):
    """The text of the program's module as that of a library which exports these."""
    text = once(text, PROVED_TEXT, OTHER_TEXT)
    text = once(text, "define i32 @main() ", "define internal i32 @main() ")
    for name in names:
        inside = f'@"{sources.LIBRARY}::{name}"('
        text = once(text, f"define internal void {inside}ptr noundef %a0", f"define void @{name}({ANSWER} %a0")
        text = once(text, f"call void {inside}ptr %", f"call void @{name}({ANSWER} %")
    return text


def make(room, to):
    """Makes the archive, and gives it its name when it is whole."""
    clang, archiver = (compiled.home() / "toolchain/bin" / name for name in ("clang", "llvm-ar"))
    crate, names = furnish(room / "repository")
    module, text, library, made, whole = (room / name for name in ("module.bc", "module.ll", "library.bc", "library.o", "library.a"))
    compiled.make_module(room, crate)
    compiled.run([clang, "-S", "-emit-llvm", "-x", "ir", module, "-o", text])
    text.write_text(as_library(text.read_text(encoding="utf-8"), names), encoding="utf-8")
    compiled.run([clang, "-c", "-emit-llvm", "-x", "ir", text, "-o", library])
    compiled.make_object(library, compiled.FAST, made)
    compiled.run([archiver, "rcs", whole, made])
    whole.replace(to)


def find():
    """The archive of these sources, compiled if it does not stand."""
    to = FOLDER / f"{compiled.sum_of_code(sources.LIBRARY)}.a"
    if not to.exists():
        with compiled.held("library"):
            if not to.exists():
                kit.say("the library is compiled without a proof, which takes a minute or two")
                FOLDER.mkdir(parents=True, exist_ok=True)
                with compiled.room_of("library") as room:
                    make(room, to)
                for path in FOLDER.glob("*.a"):
                    if path != to:
                        path.unlink(missing_ok=True)
    return to
