"""Builds the package with the shared library that `make library` has built, if there is one."""

from __future__ import annotations

import pathlib
import shutil

from setuptools import Distribution, setup
from setuptools.command.build_py import build_py
from setuptools.command.sdist import sdist
from setuptools.errors import SetupError

try:
    from setuptools.command.bdist_wheel import bdist_wheel
except ImportError:
    # setuptools has it since 70.1; until then it was wheel's.
    from wheel.bdist_wheel import bdist_wheel

BUILT = pathlib.Path(__file__).resolve().parents[2] / "out" / "liblucernetick.so"
NO_SOURCES = (
    "there is no source distribution, since the library is built by Rattle's kit: build a wheel by "
    "`make library` and `pip wheel --no-deps bindings/python`"
)


def linux_tags(machine: str) -> str:
    """The tags by which pip decides whether the library runs on a machine: with any glibc or musl
    that has a tag."""
    tags = "manylinux_2_17", "manylinux2014", "musllinux_1_1"
    return ".".join(f"{tag}_{machine}" for tag in tags)


class WithLibrary(build_py):
    """Copies the library beside the modules. Without it, the package looks for it at its import."""

    def run(self) -> None:
        super().run()
        if BUILT.is_file() and not self.editable_mode:
            shutil.copy(BUILT, pathlib.Path(self.build_lib) / "lucernetick" / BUILT.name)


class NoSources(sdist):
    """Says why there are none."""

    def run(self) -> None:
        raise SetupError(NO_SOURCES)


class OfThisMachine(Distribution):
    """A package with a library for one kind of machine."""

    def has_ext_modules(self) -> bool:
        return True


class ForEachPython(bdist_wheel):
    """A wheel for any Python 3 of this kind of machine: the library is called by ctypes alone."""

    def get_tag(self) -> tuple[str, str, str]:
        platform = super().get_tag()[2]
        if BUILT.is_file() and platform.startswith("linux_"):
            platform = linux_tags(platform[len("linux_") :])
        return "py3", "none", platform


setup(
    cmdclass={"build_py": WithLibrary, "bdist_wheel": ForEachPython, "sdist": NoSources},
    distclass=OfThisMachine,
)
