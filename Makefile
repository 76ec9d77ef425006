# What people run by hand; `make help` lists it. `make` alone builds what users have, and `make test` is the merge gate.
TOOL := crates/dm_tool/out/dm_tool
# Debian's Python, where it is there: optional modules of the tests are installed for it.
PYTHON ?= $(firstword $(wildcard /usr/bin/python3) python3)
# The system for which library, sampler, wheel, deb and dist build, one of tools/targets.py, if it isn't this one.
TARGET ?=
# Where to install; packaging/install says more.
export PREFIX DESTDIR LIBDIR PYTHONDIR
# What stands on the library takes it as it is proved, or without the toolchain as it was compiled.
RT := $(shell command -v rt 2> /dev/null)
BUILT_LIBRARY := $(if $(RT),library,assembled)

.PHONY: all users check compiled assembled help build library page sampler wheel try test install install-library \
	uninstall deb dist bench
# What a target is made of is made in its order: each of these steps uses all processors by itself.
.NOTPARALLEL:

# Builds library, sampler and command of compiled/, without the toolchain, into out/, and does a first job with them.
all: users
	@packaging/install --here
	@$(PYTHON) demo/label out

# What users have, built without the toolchain.
users: needs-all assembled
	@sampler/build

# The library of its text in compiled/.
assembled:
	@library/assemble $(if $(TARGET),--target $(TARGET))

# Tests what users have, without the toolchain.
check: users
	@tests/environment env ECC200_FOLDER="$(CURDIR)/library/out" $(PYTHON) -m tests --users

# Makes compiled/ anew of the proved source.
compiled:
	@library/build --texts
	@mkdir -p compiled
	@cp library/out/texts/*.s compiled/

# Processor times on an idle machine of 2.5 GHz. What is proved already isn't proved again.
help:
	@echo "make           builds library, sampler and command, without the toolchain, and does a first job: half a minute"
	@echo "make check     tests these, without the toolchain: three minutes of processor time"
	@echo "make install   installs what is built, callers, man pages and docs below PREFIX=/usr/local; \
	DESTDIR, LIBDIR and PYTHONDIR as usual"
	@echo "make install-library, make uninstall   the library alone; removes what make install put there"
	@echo "make wheel     builds the Python package's wheel, with the libraries that are built: seconds"
	@echo "make deb       builds Debian packages into out/deb: ten seconds; with dm_tool once make build has built it"
	@echo "make dist      makes an archive of the sources and a prebuilt one in out/dist: seconds \
	after make build library page"
	@echo "make help      lists all this"
	@echo
	@echo "With the toolchain of Rattle (rt), by which all is proved:"
	@echo "make build     proves the program dm_tool and everything below it: ten minutes on four processors"
	@echo "make library   proves the library for C and builds it, static and shared: a minute after make build"
	@echo "make sampler   builds what finds symbols in pictures, over that library: seconds"
	@echo "make page      builds the page, one file for a browser: a minute after make build"
	@echo "make compiled  makes compiled/ anew of the proved library: a minute after make library"
	@echo "make try       shows dm_tool at work, unproved if it isn't built yet: half a minute"
	@echo "make test      the merge gate, every proof from scratch and all tests: an hour or more of processor time"
	@echo "With TARGET library, sampler, wheel, deb and dist build for another system, by cross compilers of Debian:"
	@echo "aarch64-unknown-linux-gnu, riscv64-unknown-linux-gnu, or x86_64-w64-windows-gnu"
	@echo "make bench     times the program and the library beside others that are installed: minutes"
	@echo
	@echo "Each names the Debian packages that it wants, where these aren't installed."
	@echo "The program is $(TOOL), the library is in library/out."

# What a target wants and isn't installed is named before anything is proved or built for it.
needs-%:
	@command -v python3 > /dev/null || { echo "make: python3 isn't installed: apt install python3" >&2; exit 1; }
	@PYTHON=$(PYTHON) packaging/needs $* $(TARGET)

# Proves the program and everything below it, and leaves it at crates/dm_tool/out/dm_tool.
build:
	@tools/prove
	@echo "The program is $(TOOL). It writes 123456 as"
	@printf '123456\n' | $(TOOL) write

# Proves the library ecc200 and what has changed below it, and leaves it as library/out/libecc200.a and libecc200.so, or
# with TARGET=aarch64-unknown-linux-gnu, for one, in library/out/aarch64-unknown-linux-gnu.
library:
	@library/build $(if $(TARGET),--target $(TARGET))
	@echo "The library is in library/out/$(TARGET); its manual is library/ecc200.h."

# Builds the page, one file that opens from disk: web/out/mitsubadoor.html. Its library is proved for WebAssembly too,
# and lowered to 32-bit memory by wasm-opt (Debian: binaryen); its sampler is compiled by clang.
page: needs-page
	web/build

# Builds the sampler, from pictures to grids, over the library that `make library` left: sampler/out/dm_sample and
# libecc200_sample.so.
sampler: needs-sampler $(BUILT_LIBRARY)
	sampler/build $(if $(TARGET),--target $(TARGET))

# Builds the Python package's wheel over the libraries that are built:
# library/python/out/ecc200-VERSION-py3-none-PLATFORM.whl.
wheel: needs-wheel $(BUILT_LIBRARY)
	library/python/build $(if $(TARGET),--target $(TARGET))

# Shows the program at work: writing, damage, reading with a correction, a refusal.
try:
	@demo/tour

# The merge gate: every proof from scratch and the crates' tests by rt ci, then all other tests, of which tests/edits
# tries the edits that must fail. What these see of the caller's environment, tests/environment says.
test:
	@tests/environment $(PYTHON) -m tests --proofs

# Installs what is built; where nothing is, what users have is built first.
install:
	@[ -f library/out/libecc200.a ] || $(MAKE) users
	@library/assemble
	@packaging/install

# The library, its header, callers and manual, and what pkg-config and CMake read.
install-library: $(BUILT_LIBRARY)
	@packaging/install 'libecc200-[0-9]*' libecc200-dev python3-ecc200 beside

uninstall:
	packaging/install --uninstall

# Debian packages, by debhelper, of what is proved and built: out/deb. For a target they are without the program, in
# out/deb/TARGET.
deb: needs-deb $(if $(TARGET),,$(if $(RT),build)) $(BUILT_LIBRARY) sampler
	packaging/deb $(if $(TARGET),--target $(TARGET))

# Two archives in out/dist: the sources, and what is proved and built from them. With Windows as the target one of the
# libraries for it.
dist: needs-dist $(if $(TARGET),library sampler,build library page sampler)
	$(if $(TARGET),packaging/windows $(TARGET),packaging/dist)

# Times the program that `make build` left, and the library that `make library` left, beside others that are installed.
bench:
	bench/peers
	@if [ -f library/out/libecc200.a ]; then bench/library; \
	else echo "left out: the library (not built: run \`make library\` first)"; fi
