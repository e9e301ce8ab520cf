"""The version of this package, which is that of its library too."""

__version__ = "0.2.0"


def packed(version: str) -> int:
    """A version as the library has its own: a byte for each of its three numbers."""
    major, minor, patch = map(int, version.split("."))
    return major << 16 | minor << 8 | patch


def unpacked(version: int) -> str:
    return f"{version >> 16}.{version >> 8 & 255}.{version & 255}"
