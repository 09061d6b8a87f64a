# The toolchain's command `rt` proves, builds and tests; see README.md.

.PHONY: build plain web snapshot example programs compare hostile browser test test-tools editors book explanations install dist

PREFIX ?= /usr/local

# Proves and builds the programs: build/m2, build/m2c and build/m2run.
build:
	tools/build_program m2_cli m2 m2c_cli m2c m2run_cli m2run

# Proves and builds build/plain_run, which runs programs by their definition.
plain:
	tools/build_program plain_run_cli plain_run

# Makes build/web/: the page on which programs are written, with the proved compiler as a WebAssembly module, the library and
# the examples. It needs binaryen.
web: build
	mkdir -p build/web
	tools/build_web m2_cli build/web/m2.wasm
	tools/web_page build/web/m2.wasm build/web

# Tries the C functions of the module, holds both of its forms against the proved program, tries m2 on node, and puts the module
# into dist/, from where `make example` takes it.
snapshot: web
	tools/try_runtime
	tools/compare_module
	tools/compare_module --few build/web/m2.w64.wasm
	M2=hosts/node/m2.mjs M2_WASM=$(CURDIR)/build/web/m2.wasm tools/try_m2
	tools/snapshot

# Compiles examples/hello and examples/hanoi, and runs them: with the proved program if it is built, else with the snapshot of it
# by node, and else with the libraries as they stand, unproved.
example:
	tools/try_example

# Tries the programs on command lines, files and streams, good and bad, and on the rows of tools/rows/.
programs: build plain
	tools/try_programs
	tools/try_rows
	tools/try_m2
	tools/try_separate
	tools/try_server
	tools/try_debugger
	tools/try_maps

# Compares what programs do by their definition with what is stated of them, and with what their modules do.
compare: build plain
	tools/compare_programs

# Refuses each request for memory in turn, in the calls of the libraries and in the two programs.
hostile: build
	tools/build_program test_programs hostile
	tools/hostile

# Tries the hosts of hosts/ on programs that are compiled: the one on node, and the page that runs them, in a headless Chromium.
# Then the page on which programs are written.
browser:
	tools/try_hosts
	tools/try_page

# The gate: no source makes up want of memory or has a number without a name, no crate lists a library that it does not name,
# definitions are laid out, the pages of m2 are those of docs/ and so are the numbers of definitions and the index of rules, what
# editors and shells read has the language's words and m2's options, the modules of lib/ and the examples are laid out, and each
# edit still fits its file. What the pages name is there, and links lead somewhere.
# Then every proof, the tests and the programs. What is proved is tried as users call it, by the rows of tools/rows/, and with requests
# for memory refused. Last come the edits of gate-edits/, which the prover must refuse.
test:
	tools/check_pages
	tools/check_sources
	tools/lay_out --check
	tools/write_explanations --check
	tools/write_editors --check
	tools/try_explanations --rows --check
	tools/believed_definitions --check
	tools/rule_index --check
	tools/check_layout
	tools/try_edits --applies
	tools/snapshot --check
	tools/gate rt ci

# Tries the tools themselves, in seconds.
test-tools:
	tools/test_tools

# Tries what is in editors/ by the editors, highlighters and shells that are there.
editors: build
	tools/try_editors

# Tries the programs of docs/book/.
book: build
	tools/try_book

# Tries the examples of docs/refusals/ and docs/faults/.
explanations: build
	tools/try_explanations

# Installs what `make build` built: make install PREFIX=DIR. It builds nothing.
install:
	tools/install "$(PREFIX)" $(if $(DESTDIR),"$(DESTDIR)")

# Makes three archives with checksums, in build/: the proved programs, the page, and m2 for node.
dist: build web
	tools/dist
