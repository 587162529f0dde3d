"""The version of hilldale-lab, which is that of pyproject.toml."""

VERSION = "1.1.1"
