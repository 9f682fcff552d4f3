"""The wheel holds a library for Linux on x86-64. It is called by ctypes, from any Python 3."""
from setuptools import Distribution, setup
from wheel.bdist_wheel import bdist_wheel


class Binary(Distribution):
    """So the package goes where compiled code belongs."""

    def has_ext_modules(self):
        return True


class Wheel(bdist_wheel):
    """A wheel for each Python 3, but for one machine."""

    def get_tag(self):
        return "py3", "none", "linux_x86_64"


setup(distclass=Binary, cmdclass={"bdist_wheel": Wheel})
