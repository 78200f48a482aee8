"""What the tools share: `tell`, `script` and `record` beside the program. None of it is proved."""
