"""The tag of the wheel: any Python 3, no interface of the interpreter's, this machine.

The wheel holds a shared library, so it is no pure one; but the library is no extension module, so any Python loads it. Of
the C library it needs `memcpy` and the like, which glibc has had since 2.17 on every machine that it is built for
(tests/test_package.py looks).
"""

import platform

from setuptools import Distribution, setup
from wheel.bdist_wheel import bdist_wheel


class LibraryDistribution(Distribution):
    def has_ext_modules(self):
        return True


class LibraryWheel(bdist_wheel):
    def get_tag(self):
        return "py3", "none", f"manylinux_2_17_{platform.machine()}"


setup(distclass=LibraryDistribution, cmdclass={"bdist_wheel": LibraryWheel})
