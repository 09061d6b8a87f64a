"""How a program of this repository becomes a WebAssembly module: the parts of tools/build_web."""
