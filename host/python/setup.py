"""A wheel that has the shared library in it belongs to one kind of machine, but to every Python."""

from pathlib import Path

from setuptools import setup
from wheel.bdist_wheel import bdist_wheel

HAS_LIBRARY = any(Path(__file__).parent.glob("merelsplum/*.so.*"))


class Wheel(bdist_wheel):
    def finalize_options(self):
        super().finalize_options()
        self.root_is_pure = not HAS_LIBRARY

    def get_tag(self):
        return ("py3", "none", super().get_tag()[2])


setup(cmdclass={"bdist_wheel": Wheel})
