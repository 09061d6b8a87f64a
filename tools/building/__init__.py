"""How tools/build_program proves and builds programs."""
