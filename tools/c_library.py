"""The files of the C library, as they are installed: libnumzela.a, numzela.h and numzela.pc.

`rt lib` builds the archive without the kit's object heap.pic.o, which calls malloc, realloc and free."""
import re
import shutil
import subprocess
import tempfile
from pathlib import Path

TOP = Path(__file__).resolve().parent.parent
BUILT = "crates/numzela/out/libnumzela.a"  # in a checkout in which `rt lib` has built crates/numzela
HEADER = "include/numzela.h"
HEAP = "heap.pic.o"
PC = """\
prefix={prefix}
includedir=${{prefix}}/include
libdir=${{prefix}}/{libdir}

Name: numzela
Description: Verified resource programs, and a CoAP server as a state machine
Version: {version}
Cflags: -I${{includedir}}
Libs: -L${{libdir}} -lnumzela
"""


def version():
    """Returns the version, which `fcd --version` prints too."""
    source = (TOP / "crates/fc_cli/src/command_line.rt").read_text(encoding="utf-8")
    return re.search(r'^pub const VERSION: &str = "([^",]+),', source, re.M)[1]


def archive(built, kit):
    """Returns the bytes of a built archive with the object of the kit in it. The same files make the same bytes."""
    with tempfile.TemporaryDirectory() as folder:
        shutil.copyfile(built, f"{folder}/libnumzela.a")
        subprocess.run(["ar", "x", str((kit / "c/liblibc_c.a").resolve()), HEAP], cwd=folder, check=True)
        subprocess.run(["ar", "rDs", "libnumzela.a", HEAP], cwd=folder, check=True, stderr=subprocess.DEVNULL)
        return Path(folder, "libnumzela.a").read_bytes()


def files(built, kit, prefix, libdir="lib"):
    """Returns the bytes of each file by its path below the prefix."""
    return {
        f"{libdir}/libnumzela.a": archive(built, kit),
        HEADER: (TOP / HEADER).read_bytes(),
        f"{libdir}/pkgconfig/numzela.pc": PC.format(prefix=prefix, libdir=libdir, version=version()).encode(),
    }
