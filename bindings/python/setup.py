"""Builds the package `jskw`: the module in C with the library in it, the licences of all that is linked into that, and
the program `jskw-check` if it is built.

The library is libjskw.a of ../out, which bindings/build makes, or of the folder that JSKW_DIR names, as PREFIX/lib
after `./install --prefix PREFIX`. JSKW_LICENSES names a folder of further licences (./install gives those of the kit's
crates), JSKW_CHECK another program than ../../crates/jskw_check/out/jskw_check."""

import os
import pathlib
import shutil
import sysconfig

from setuptools import Extension, setup
from setuptools.command.build_py import build_py
from setuptools.command.sdist import sdist

try:
    from setuptools.command.bdist_wheel import bdist_wheel
except ModuleNotFoundError:  # before setuptools 70.1
    from wheel.bdist_wheel import bdist_wheel

HERE, ROOT = pathlib.Path(__file__).resolve().parent, pathlib.Path(__file__).resolve().parents[2]
PROGRAM = pathlib.Path(os.environ.get("JSKW_CHECK") or ROOT / "crates" / "jskw_check" / "out" / "jskw_check")


def copy_licenses(folder):
    """Copies those that an sdist, the environment and the repository have."""
    to = pathlib.Path(folder, "licenses")
    to.mkdir(exist_ok=True)
    for source in filter(os.path.isdir, [HERE / "licenses", os.environ.get("JSKW_LICENSES", "")]):
        shutil.copytree(source, to, dirs_exist_ok=True)
    for license in ROOT.glob("LICENSE*"):
        shutil.copy(license, to)


class Wheel(bdist_wheel):
    def egg2dist(self, egginfo_path, distinfo_path):
        super().egg2dist(egginfo_path, distinfo_path)
        copy_licenses(distinfo_path)


class Source(sdist):
    def make_release_tree(self, base_dir, files):
        super().make_release_tree(base_dir, files)
        copy_licenses(base_dir)


class Build(build_py):
    def run(self):
        super().run()
        if PROGRAM.exists() and not getattr(self, "editable_mode", False):
            shutil.copy2(PROGRAM, pathlib.Path(self.build_lib, "jskw", "jskw-check"))


if __name__ == "__main__":
    if sysconfig.get_config_var("Py_GIL_DISABLED"):
        raise SystemExit("jskw: a free-threaded Python has no stable ABI: use one with the interpreter's lock")
    archive = pathlib.Path(os.environ.get("JSKW_DIR") or ROOT / "bindings" / "out") / "libjskw.a"
    if not archive.exists():
        raise SystemExit(f"jskw: there is no library {archive}: run ./install or bindings/build first")
    header = ROOT / "include" if (ROOT / "include" / "jskw.h").exists() else archive.parents[1] / "include"
    module = Extension(
        "jskw._jskw", ["src/jskw/_jskw.c"], include_dirs=[str(header)], extra_objects=[str(archive)],
        define_macros=[("Py_LIMITED_API", "0x03090000")], extra_compile_args=["-std=gnu11", "-g0"],
        extra_link_args=["-Wl,--exclude-libs,ALL", "-Wl,--gc-sections"], depends=[str(archive)], py_limited_api=True,
    )  # fmt: skip
    setup(ext_modules=[module], cmdclass={"build_py": Build, "bdist_wheel": Wheel, "sdist": Source})
