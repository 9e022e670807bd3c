# The library for programs in C and other languages, from the archive that the proved crate cborn_c gives.
# a release's version, or what follows a release: the next one's with -dev, which Python writes with .dev0
VERSION := 0.6.0-dev
PYTHON_VERSION := $(VERSION:-dev=.dev0)
SONAME := libcborn.so.0
# the kit's folder, which has the three functions by which a library takes memory
KIT = $(dir $(shell rt doc))
DIST = cborn-$(VERSION)-linux-x86_64
ARCHIVE := crates/cborn_c/out/libcborn_c.a
LIBRARY := build/libcborn.a build/libcborn.so build/cborn.pc
# the package of Python, as it is in the wheel; PYTHON has to have its header Python.h, of any version from 3.8 on
PYTHON ?= python3
PYTHON_HEADERS = $(shell $(PYTHON) -c 'import sysconfig; print(sysconfig.get_path("include"))')
PACKAGE := $(addprefix build/python/cborn/,__init__.py __main__.py _cborn.pyi py.typed _cborn.abi3.so)

.PHONY: library python library-tests library-bench install-library dist

library: prove-library
	$(MAKE) $(LIBRARY)

.PHONY: prove-library
prove-library: kit
	cd crates/cborn_c && rt lib

# One object, whose only global names are cborn_*: two libraries that are written in Rattle can stand in one program.
build/cborn.o: $(ARCHIVE)
	rm -rf build/parts && mkdir -p build/parts
	cd build/parts && ar x $(CURDIR)/$(ARCHIVE) && ar x $(KIT)c/liblibc_c.a heap.pic.o
	ld -r -o $@ build/parts/*.o
	objcopy --wildcard --keep-global-symbol='cborn_*' $@
	rm -rf build/parts

build/libcborn.a: build/cborn.o
	rm -f $@
	ar rcsD $@ build/cborn.o

# no symbolic link: rt refuses a repository that holds one
build/libcborn.so: build/cborn.o
	$(CC) -shared -nostartfiles -Wl,-soname,$(SONAME) -Wl,-z,defs -Wl,-z,relro,-z,now -Wl,--build-id=none -s -o build/$(SONAME) build/cborn.o
	ln -f build/$(SONAME) $@

build/cborn.pc: bindings/cborn.pc.in bindings/library.mk
	mkdir -p build
	sed 's|@VERSION@|$(VERSION)|' bindings/cborn.pc.in > $@

# The library stands in the extension, which is one for all versions of Python: it keeps to the stable ABI.
python: library
	$(MAKE) $(PACKAGE)

build/python/cborn/%: bindings/python/cborn/%
	install -D -m 644 $< $@

build/python/cborn/_cborn.abi3.so: bindings/python/cborn/_cborn.c include/cborn.h build/libcborn.a
	@test -e '$(PYTHON_HEADERS)/Python.h' || { echo "Python.h isn't in $(PYTHON_HEADERS), and the Python package is an extension in C: install python3-dev, or name another Python by make PYTHON=.." >&2; exit 1; }
	mkdir -p $(@D)
	$(CC) -std=c11 -O2 -Wall -Wextra -Werror -Wno-missing-field-initializers -fPIC -fvisibility=hidden -shared -Iinclude -I$(PYTHON_HEADERS) -Wl,-z,relro,-z,now -Wl,--exclude-libs,ALL -Wl,--build-id=none -s -o $@ $< build/libcborn.a

library-tests: build library python
	python3 tests/library.py $(PROGRAM) build
	cp bindings/python/test_cborn.py build/python
	cd build/python && $(PYTHON) -m unittest -q test_cborn
	python3 tests/examples.py build
	if command -v cargo > /dev/null; then cd bindings/rust && \
		MAKEFLAGS= CBORN_LIBRARY_FOLDER=$(CURDIR)/build cargo test --offline --quiet --target-dir $(CURDIR)/build/rust; \
	else echo 'cargo is not there: the Rust crate is not tested'; fi

# what a call costs, from C, Rust, Go and Python
library-bench: library python
	python3 bench/calls.py build

install: install-library

install-library: library
	$(MAKE) put-library

# what is built is put below DESTDIR and PREFIX
.PHONY: put-library
put-library:
	install -D -m 644 build/libcborn.a $(DESTDIR)$(PREFIX)/lib/libcborn.a
	install -D -m 755 build/$(SONAME) $(DESTDIR)$(PREFIX)/lib/$(SONAME)
	ln -sf $(SONAME) $(DESTDIR)$(PREFIX)/lib/libcborn.so
	install -D -m 644 include/cborn.h $(DESTDIR)$(PREFIX)/include/cborn.h
	install -D -m 644 build/cborn.pc $(DESTDIR)$(PREFIX)/lib/pkgconfig/cborn.pc

# Program, library, wheel and crate for whoever has no kit; the same bytes each time.
dist: build library python
	rm -rf build/$(DIST)
	install -D $(PROGRAM) build/$(DIST)/bin/cborn
	install -D -m 644 man/cborn.1 build/$(DIST)/share/man/man1/cborn.1
	$(MAKE) put-completions put-library DESTDIR=build/$(DIST) PREFIX=
	mkdir -p build/$(DIST)/docs/pictures build/$(DIST)/examples build/$(DIST)/python build/$(DIST)/rust/lib build/$(DIST)/tests/forms
	cp README.md CHANGELOG.md CONTRIBUTING.md build/$(DIST)
	cp docs/*.md build/$(DIST)/docs
	cp docs/pictures/*.svg build/$(DIST)/docs/pictures
	cp examples/*.py build/$(DIST)/examples
	cp tests/run.py tests/*.table build/$(DIST)/tests
	cp tests/forms/*.table build/$(DIST)/tests/forms
	cp -r $(addprefix bindings/rust/,Cargo.toml Cargo.lock README.md build.rs src tests) build/$(DIST)/rust
	cp build/libcborn.a build/$(DIST)/rust/lib
	python3 bindings/python/make_wheel.py $(PYTHON_VERSION) build build/$(DIST)/python
	rt version > build/$(DIST)/PROVED-WITH
	cd build && tar --sort=name --format=ustar --owner=0 --group=0 --numeric-owner --mode=u=rwX,go=rX --mtime=@0 -cf - $(DIST) | gzip -9n > $(DIST).tar.gz
	rm -rf build/$(DIST)
	sha256sum build/$(DIST).tar.gz

.PHONY: dist-tests
dist-tests: dist
	python3 bindings/try_archive.py build/$(DIST).tar.gz
