"""The commands of hilldale-lab, a module each with `add_parser` and `run`."""
