"""Puts the shared library and the program into the package.

The library is the file that PEF_LIBRARY names, and the program, which becomes the command `pef`, the one that PEF_PROGRAM names. If a name
is empty, the package has none of it: it then finds an installed library when it is used. Otherwise the machine's C compiler makes both
from the C source in source/, as a source distribution has it. In a clone of the repository they are those that are built there,
../out/libpef.so and ../crates/pef/out/pef, or else are made from the C source in ../out/source.
CFLAGS replaces the optimization of the compiler, -O2.
"""
import os
import pathlib
import re
import shutil
import sys

from setuptools import Extension, setup
from setuptools.command.build_ext import build_ext

from distutils.command.build_scripts import build_scripts  # of setuptools, which is imported first

try:
    from setuptools.command.bdist_wheel import bdist_wheel
except ImportError:  # setuptools before 70.1
    from wheel.bdist_wheel import bdist_wheel

HERE = pathlib.Path(__file__).resolve().parent
TOP = HERE.parent
OWN_SOURCE = HERE / "source"
#: Where the C source is: what is made, what is written by hand, and the header.
SOURCES = [OWN_SOURCE] if OWN_SOURCE.is_dir() else [TOP / "out" / "source", TOP / "source", TOP / "include"]


def given(variable, built, source):
    """The file that goes into the package; "" for none, and None if it is made from the C source."""
    if variable in os.environ:
        return os.environ[variable]
    if not OWN_SOURCE.is_dir() and built.is_file():
        return str(built)
    return None if (SOURCES[0] / source).is_file() else ""


LIBRARY = given("PEF_LIBRARY", TOP / "out" / "libpef.so", "pef.c")
PROGRAM = given("PEF_PROGRAM", TOP / "crates" / "pef" / "out" / "pef", "pef_program.c")
if LIBRARY == "" and "PEF_LIBRARY" not in os.environ:
    sys.exit("there is no library: tools/build-library builds out/libpef.so, tools/c-source makes its C source, or PEF_LIBRARY names a file")
if LIBRARY == "":
    PROGRAM = PROGRAM or ""

#: What the library is called on each kind of machine.
LIBRARIES = {".dll": "pef.dll", ".dylib": "libpef.dylib", ".so": "libpef.so"}
ENDING = pathlib.Path(LIBRARY).suffix if LIBRARY else {"win32": ".dll", "darwin": ".dylib"}.get(sys.platform, ".so")
LIBRARY_NAME = LIBRARIES.get(ENDING, "libpef.so")
PROGRAM_NAME = "pef.exe" if (PROGRAM.endswith(".exe") if PROGRAM else sys.platform == "win32") else "pef"


def calls():
    """The calls of the library, which is all that it exports."""
    return re.findall(r"^(?:struct )?\w+ \*?(pef_\w+)\([^;{]*\);", (SOURCES[-1] / "pef.h").read_text(encoding="utf-8"), re.M)


class Build(build_ext):
    """Copies or compiles the library and the program. Neither is a module of Python."""

    def run(self):
        super().run()
        if PROGRAM is None:
            self.compile_program()

    def get_ext_filename(self, fullname):
        return os.path.join(*fullname.split(".")[:-1], LIBRARY_NAME)

    def build_extension(self, ext):
        into = self.get_ext_fullpath(ext.name)
        os.makedirs(os.path.dirname(into), exist_ok=True)
        if LIBRARY:
            shutil.copyfile(LIBRARY, into)
        else:
            self.compiler.link_shared_object(self.compiled("pef.c"), into, export_symbols=calls())

    def copy_extensions_to_source(self):
        """For an editable package, which finds the built library of the clone."""
        if not LIBRARY:
            super().copy_extensions_to_source()

    def compile_program(self):
        self.compiler.link_executable(self.compiled("pef_program.c", "pef_host.c"), "pef", output_dir=self.build_temp)

    def compiled(self, *names):
        """The objects of some files of the C source."""
        paths = [str(next(folder / it for folder in SOURCES if (folder / it).is_file())) for it in names]
        flags = [] if self.compiler.compiler_type == "msvc" else ["-std=c99", "-g0"] + ["-O2"] * ("CFLAGS" not in os.environ)
        return self.compiler.compile(paths, output_dir=self.build_temp, include_dirs=[str(SOURCES[-1])], extra_postargs=flags)


class BuildProgram(build_scripts):
    """Puts the program where setuptools expects a text."""

    def get_source_files(self):
        return []

    def run(self):
        self.run_command("build_ext")
        compiled = pathlib.Path(self.get_finalized_command("build_ext").build_temp, PROGRAM_NAME)
        into = pathlib.Path(self.build_dir, PROGRAM_NAME)
        into.parent.mkdir(parents=True, exist_ok=True)
        shutil.copyfile(PROGRAM or compiled, into)
        into.chmod(0o755)


class Wheel(bdist_wheel):
    """A wheel for all versions of Python, since the library knows nothing of Python."""

    def get_tag(self):
        return "py3", "none", super().get_tag()[2]


setup(
    cmdclass={"build_ext": Build, "build_scripts": BuildProgram, "bdist_wheel": Wheel},
    ext_modules=[Extension("pef.libpef", [])] if LIBRARY != "" else [],
    scripts=["pef"] if PROGRAM != "" else [],
)
