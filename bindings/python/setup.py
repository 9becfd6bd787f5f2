"""The tag of the wheel: one that holds libvx.so is for one system, and for any Python there."""

import pathlib

import setuptools

try:
    from setuptools.command.bdist_wheel import bdist_wheel
except ImportError:
    from wheel.bdist_wheel import bdist_wheel


class Distribution(setuptools.Distribution):
    def has_ext_modules(self):
        return pathlib.Path(__file__).with_name("vx").joinpath("libvx.so").exists()


class Wheel(bdist_wheel):
    def get_tag(self):
        tag = super().get_tag()
        return tag if self.root_is_pure else ("py3", "none", tag[2])


setuptools.setup(distclass=Distribution, cmdclass={"bdist_wheel": Wheel})
