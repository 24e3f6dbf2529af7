# The object layer as a C library.
#
#     make                       build/libobman.a, build/libobman.so
#     make install PREFIX=/usr   both, headers, man pages, files for pkg-config and CMake, and in share/obman bindings, examples and guides;
#                                and the program, where `./obman prove` has made it. DESTDIR goes before all of it; LIBDIR, INCLUDEDIR,
#                                MANDIR, DATADIR and BINDIR say where a distribution has such files
#     make install-strip         the same without symbols for a debugger
#     make dist                  all that as a tarball in build/, for machines without the kit, wherever it is unpacked
#     make examples              builds and runs the examples in C, C++, Rust and Python
#     make check                 passes every check (./check)
#     make windows               builds examples/windows: Windows programs, and build/windows/nt, a host that runs such by the DLLs of an
#                                installed Wine; it needs mingw-w64, Unicorn and Capstone (docs/WINDOWS.md); LIBRARY as below
#     make win32                 builds examples/win32: the calls of Windows for the threads of one process, build/win32/libwin32.a, and a
#                                Windows program on it, build/win32/buffer; LIBRARY may name another archive than build/libobman.a
#
# It needs the Rattle kit, which proves the library and builds it, a C compiler and ar.
PREFIX ?= /usr/local
LIBDIR ?= $(PREFIX)/lib
INCLUDEDIR ?= $(PREFIX)/include
MANDIR ?= $(PREFIX)/share/man
DATADIR ?= $(PREFIX)/share/obman
BINDIR ?= $(PREFIX)/bin
CC ?= cc
STRIP ?= strip
CXX ?= c++
CARGO ?= cargo
PYTHON ?= python3
MINGW ?= x86_64-w64-mingw32-gcc
LIBRARY ?= build/libobman.a

KIT = $(dir $(shell rt doc))
PROVED = $(foreach part,obman_c obman_c_whole,crates/$(part)/out/lib$(part).a)
PROGRAM = crates/obman/out/obman
# A program that was linked with a shared library runs with each later one of the same first number.
NUMBER := $(shell sed -n 's/^\#define OM_VERSION \([0-9]*\)u$$/\1/p' include/obman.h)
VERSION := $(shell expr $(NUMBER) / 10000)
RELEASE := $(VERSION).$(shell expr $(NUMBER) / 100 % 100).$(shell expr $(NUMBER) % 100)
DIST = obman-$(RELEASE)-x86_64-linux
# What is installed finds the rest from where it lies.
HEADERS = $(shell realpath -ms --relative-to=$(LIBDIR) $(INCLUDEDIR))

WIN32 = $(patsubst examples/win32/%.c,build/win32/%.o,$(wildcard examples/win32/*.c))
GUESTS = $(patsubst examples/windows/guests/%.c,build/windows/%.exe,$(wildcard examples/windows/guests/*.c))

.PHONY: all proved check install install-strip dist examples windows win32 clean

all: build/libobman.a build/libobman.so

# What has changed since it was proved is known by contents (checks/prove); where nothing has, no file is touched.
proved:
	checks/prove obman_c obman_c_whole >&2

$(PROVED): proved ;

# The proved code, with the kit's calls of malloc, realloc and free.
build/libobman.a: $(PROVED)
	rm -rf build/objects $@
	mkdir -p build/objects
	cd build/objects && for archive in $(abspath $(PROVED)) $(KIT)c/liblibc_c.a; do ar x $$archive || exit 1; done
	ar rcs $@ build/objects/*.o

# Its functions alone can be seen.
build/libobman.so: build/libobman.a
	echo 'OBMAN_$(VERSION) { global: om_*; local: *; };' > build/libobman.map
	$(CC) -shared -o $@ -Wl,-soname,libobman.so.$(VERSION) -Wl,--version-script=build/libobman.map -Wl,--whole-archive $< -Wl,--no-whole-archive

install: all
	mkdir -p $(DESTDIR)$(LIBDIR)/pkgconfig $(DESTDIR)$(LIBDIR)/cmake/obman $(DESTDIR)$(INCLUDEDIR) $(DESTDIR)$(MANDIR)/man1 $(DESTDIR)$(MANDIR)/man3
	cp build/libobman.a $(DESTDIR)$(LIBDIR)/
	cp build/libobman.so $(DESTDIR)$(LIBDIR)/libobman.so.$(VERSION)
	ln -sf libobman.so.$(VERSION) $(DESTDIR)$(LIBDIR)/libobman.so
	cp include/obman.h include/obman.hpp $(DESTDIR)$(INCLUDEDIR)/
	cp man/obman.1 $(DESTDIR)$(MANDIR)/man1/
	cp man/obman.3 $(DESTDIR)$(MANDIR)/man3/
	printf '%s\n' 'libdir=$${pcfiledir}/..' 'includedir=$${libdir}/$(HEADERS)' '' 'Name: obman' \
		'Description: the object layer of the NT kernel as Win32 programs see it' 'Version: $(RELEASE)' \
		'Libs: -L$${libdir} -lobman' 'Cflags: -I$${includedir}' > $(DESTDIR)$(LIBDIR)/pkgconfig/obman.pc
	printf '%s\n' 'get_filename_component(_obman "$${CMAKE_CURRENT_LIST_DIR}/../.." REALPATH)' \
		'add_library(obman::obman SHARED IMPORTED)' \
		'set_target_properties(obman::obman PROPERTIES IMPORTED_LOCATION "$${_obman}/libobman.so.$(VERSION)"' \
		'  IMPORTED_SONAME "libobman.so.$(VERSION)" INTERFACE_INCLUDE_DIRECTORIES "$${_obman}/$(HEADERS)")' \
		'add_library(obman::static STATIC IMPORTED)' \
		'set_target_properties(obman::static PROPERTIES IMPORTED_LOCATION "$${_obman}/libobman.a"' \
		'  INTERFACE_INCLUDE_DIRECTORIES "$${_obman}/$(HEADERS)")' > $(DESTDIR)$(LIBDIR)/cmake/obman/obman-config.cmake
	printf '%s\n' 'set(PACKAGE_VERSION "$(RELEASE)")' 'if(PACKAGE_FIND_VERSION VERSION_GREATER PACKAGE_VERSION OR' \
		'   (DEFINED PACKAGE_FIND_VERSION_MAJOR AND NOT PACKAGE_FIND_VERSION_MAJOR EQUAL $(VERSION)))' \
		'  set(PACKAGE_VERSION_COMPATIBLE FALSE)' 'else()' '  set(PACKAGE_VERSION_COMPATIBLE TRUE)' 'endif()' \
		> $(DESTDIR)$(LIBDIR)/cmake/obman/obman-config-version.cmake
	mkdir -p $(DESTDIR)$(DATADIR)/docs $(DESTDIR)$(DATADIR)/bindings/rust $(DESTDIR)$(DATADIR)/bindings/python
	cp -R examples $(DESTDIR)$(DATADIR)/
	cp docs/BEHAVIOUR.md docs/C.md docs/DEPARTURES.md docs/EMBEDDING.md docs/FORMATS.md docs/MEASUREMENTS.md docs/SAVESTATES.md docs/WINDOWS.md $(DESTDIR)$(DATADIR)/docs/
	cp bindings/python/*.py $(DESTDIR)$(DATADIR)/bindings/python/
	cp -R bindings/rust/Cargo.toml bindings/rust/build.rs bindings/rust/src bindings/rust/examples bindings/rust/tests $(DESTDIR)$(DATADIR)/bindings/rust/
	if [ -x $(PROGRAM) ]; then mkdir -p $(DESTDIR)$(BINDIR) && cp $(PROGRAM) $(DESTDIR)$(BINDIR)/; fi

install-strip: install
	$(STRIP) --strip-debug $(DESTDIR)$(LIBDIR)/libobman.a
	$(STRIP) --strip-unneeded $(DESTDIR)$(LIBDIR)/libobman.so.$(VERSION)

dist: all
	rm -rf build/$(DIST)
	$(MAKE) install-strip PREFIX= LIBDIR=/lib INCLUDEDIR=/include MANDIR=/share/man DATADIR=/share/obman BINDIR=/bin DESTDIR=$(abspath build/$(DIST))
	cp examples/README.md build/$(DIST)/
	tar -C build --sort=name --owner=0 --group=0 -czf build/$(DIST).tar.gz $(DIST)
	rm -rf build/$(DIST)

examples: all
	$(CC) -std=c99 -Iinclude -o build/guests examples/c/guests.c build/libobman.a
	build/guests
	$(CC) -std=c99 -Iinclude -o build/emulator examples/c/emulator.c build/libobman.a
	build/emulator
	$(CC) -std=c99 -Iinclude -o build/flight examples/c/flight.c build/libobman.a
	build/flight build/flight.state build/flight.script
	$(CC) -std=c11 -pthread -Iinclude -o build/threads examples/c/threads.c build/libobman.a
	build/threads
	$(CXX) -std=c++17 -Iinclude -o build/host examples/cpp/host.cc build/libobman.a
	build/host
	cd bindings/rust && OBMAN_LIB=$(abspath build) CARGO_TARGET_DIR=$(abspath build/cargo) $(CARGO) run --offline --example host
	OBMAN=build/libobman.so $(PYTHON) examples/python/host.py

check:
	./check

windows: build/windows/nt $(GUESTS)

# (fast.c stands before functions of Unicorn's library, which finds it among what the program exports)
build/windows/nt: $(wildcard examples/windows/nt/*) include/obman.h $(LIBRARY)
	mkdir -p $(@D)
	$(CC) -std=c11 -O2 -Iinclude -o $@ $(filter %.c,$^) $(LIBRARY) -rdynamic -lunicorn -lcapstone

# Windows programs that need kernel32 alone, and no C library.
build/windows/%.exe: examples/windows/guests/%.c $(wildcard examples/windows/guests/*.h)
	mkdir -p $(@D)
	$(MINGW) -std=c11 -O2 -nostdlib -ffreestanding -mno-stack-arg-probe -e start -o $@ $< -lkernel32

win32: build/win32/buffer

build/win32/%.o: examples/win32/%.c $(wildcard examples/win32/*.h) include/obman.h
	mkdir -p $(@D)
	$(CC) -std=c11 -O2 -Iinclude -Iexamples/win32 -c -o $@ $<

build/win32/libwin32.a: $(WIN32)
	rm -f $@
	ar rcs $@ $^

# Source that was written for Windows, as it is.
build/win32/buffer: examples/win32/programs/buffer.c build/win32/libwin32.a $(LIBRARY)
	$(CC) -std=c11 -O2 -Iexamples/win32 -o $@ $^ -pthread

clean:
	rm -rf build
