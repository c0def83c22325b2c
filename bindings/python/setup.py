"""Tags the wheel with its platform, for every Python 3, if it contains the library."""
import os

from setuptools import Distribution, setup
from wheel.bdist_wheel import bdist_wheel

HAS_LIBRARY = os.path.exists(os.path.join(os.path.dirname(os.path.abspath(__file__)), "tcpwit", "libtcpwit.so.1"))


class Package(Distribution):
    """The package, whose files depend on the platform if the library is one of them."""

    def has_ext_modules(self):
        return HAS_LIBRARY


class Wheel(bdist_wheel):
    """A wheel whose code is the same for every Python 3."""

    def get_tag(self):
        return ("py3", "none", super().get_tag()[2])


setup(distclass=Package, cmdclass={"bdist_wheel": Wheel})
