"""The version of the package, which is that of ``include/uppinalo.h``."""

__version__ = "0.1.0"
