# Installs what is built. Each target proves and builds first where it has to; the program needs the
# C library alone.
#   make install PREFIX=/usr/local DESTDIR=
#   make install-program          (the program, its clients and scripts without the library)
#   make install-lib              (the library for C, C++ and Python without the program)
#   make lib                      (the library, in crates/libclearmap/out/)
#   make lib-arm                  (the library for ARM, in crates/libclearmap/out/aarch64/)
#   make deb                      (packages for Debian, in the folder packages/)
#   make wheel                    (wheels with the library and the program in them, in packages/)
#   make release                  (all packages, their checksums and the gate's log, in packages/)
PREFIX = /usr/local
LIBDIR = $(PREFIX)/lib
PKGCONFIGDIR = $(PREFIX)/share/pkgconfig
DESTDIR =
INSTALL = install
OBJCOPY = objcopy
to = $(DESTDIR)$(PREFIX)
program = crates/clearmap/out/clearmap
version = $(shell sed -n 's/^version = "\(.*\)"/\1/p' clients/python/pyproject.toml)
filled = sed 's|@PREFIX@|$(PREFIX)|; s|@LIBDIR@|$(LIBDIR:$(PREFIX)/%=$${prefix}/%)|; s|@FOLDER@|$(LIBDIR:$(PREFIX)/%=%)|; s|@VERSION@|$(version)|'
pages = clearmap.1 clearmap-backup.1 clearmap-gateway.1 clearmap-publish.1 clearmap-ros.1 \
    clearmap-ros-node.1 clearmap-view.1
client = $(notdir $(wildcard clients/python/clearmap/*.py)) py.typed
view = asking.py bodies.py changes.py changing.py draft.py exact.py following.py outlines.py \
    paths.py picture.py robot.py shown.py site_of_map.py tables.py watched.py wording.py yaml_map.py $(wildcard tools/view/page/*)
ros = clearmap_answers.py clearmap_costmap.py clearmap_draft.py clearmap_feed.py \
    clearmap_follow.py clearmap_grid.py clearmap_layers.py clearmap_messages.py \
    clearmap_order.py clearmap_server.py
ros_commands = clearmap_node.py clearmap_ros.py clearmap_ros2_node.py
gateway = clients.py dumps.py limits.py lines.py links.py listener.py queries.py streams.py \
    versions.py watch.py
fleet = places.py publisher.py scripts.py source.py store.py

# The library: what is proved comes from rt, and clients/c/clearmap.c goes with it.
library = crates/libclearmap/out
archive = $(library)/liblibclearmap.a
lib_crates = metric bits column envelope field clearance footprint libclearmap
lib_sources = $(shell find $(lib_crates:%=crates/%) -name out -prune -o -name '*.rt' -print \
    -o -name '*.antt' -print)
CFLAGS = -O2
lib_cflags = -std=c11 -fPIC $(CFLAGS)
lib_links = -Wl,-soname,libclearmap.so.2 -Wl,--version-script=clients/c/clearmap.map -Wl,-z,defs \
    $(lib_needs)
# So that the system's loader refuses it to a processor without SSE 4.2.
lib_needs = $(if $(findstring x86_64,$(shell $(CC) -dumpmachine)),-Wl$(comma)-z$(comma)x86-64-v2)
comma = ,
libdir = $(DESTDIR)$(LIBDIR)
arm = $(library)/aarch64
headers = $(notdir $(wildcard clients/cpp/clearmap*.hpp))

# What both install-program and install-lib put in place: it goes with the last of the two.
shared = '$(to)/include/clearmap.hpp' '$(to)/share/clearmap'

.PHONY: all lib lib-arm deb wheel release release-check install install-program install-lib \
    uninstall uninstall-program uninstall-lib

all:
	./clearmap --version

install: install-program install-lib

uninstall: uninstall-program uninstall-lib

install-program: all
	$(INSTALL) -D -m 755 $(program) '$(to)/bin/clearmap'
	$(INSTALL) -m 755 bin/clearmap-backup '$(to)/bin/clearmap-backup'
	for page in $(pages); do $(INSTALL) -D -m 644 man/$$page '$(to)/share/man/man1/'$$page || exit 1; done
	$(INSTALL) -D -m 644 man/clearmap-protocol.7 '$(to)/share/man/man7/clearmap-protocol.7'
	$(INSTALL) -D -m 644 packaging/clearmap.bash '$(to)/share/bash-completion/completions/clearmap'
	for part in $(client); do \
	    $(INSTALL) -D -m 644 clients/python/clearmap/$$part \
	        '$(to)/share/clearmap/python/clearmap/'$$part || exit 1; \
	done
	for part in $(ros); do \
	    $(INSTALL) -m 644 tools/ros/$$part '$(to)/share/clearmap/python/'$$part || exit 1; \
	done
	for part in $(ros_commands); do \
	    $(INSTALL) -m 755 tools/ros/$$part '$(to)/share/clearmap/python/'$$part || exit 1; \
	done
	$(INSTALL) -m 644 tools/ros/package.xml '$(to)/share/clearmap/package.xml'
	for part in launch/clearmap.launch rviz/clearmap.rviz; do \
	    $(INSTALL) -D -m 644 tools/ros/$$part '$(to)/share/clearmap/ros/'$$part || exit 1; \
	done
	for part in house.png house.yaml plan.cpp; do \
	    $(INSTALL) -D -m 644 examples/$$part '$(to)/share/clearmap/examples/'$$part || exit 1; \
	done
	for part in bin/distances_to_pgm examples/plan.py; do \
	    $(INSTALL) -m 755 $$part '$(to)/share/clearmap/examples/' || exit 1; \
	done
	$(INSTALL) -D -m 755 tools/view/clearmap_view.py '$(to)/share/clearmap/view/clearmap_view.py'
	for part in $(view:tools/view/%=%); do \
	    $(INSTALL) -D -m 644 tools/view/$$part '$(to)/share/clearmap/view/'$$part || exit 1; \
	done
	$(INSTALL) -D -m 755 tools/gateway/clearmap_gateway.py \
	    '$(to)/share/clearmap/gateway/clearmap_gateway.py'
	for part in $(gateway); do \
	    $(INSTALL) -m 644 tools/gateway/$$part '$(to)/share/clearmap/gateway/'$$part || exit 1; \
	done
	$(INSTALL) -D -m 755 tools/fleet/clearmap_publish.py \
	    '$(to)/share/clearmap/fleet/clearmap_publish.py'
	for part in $(fleet); do \
	    $(INSTALL) -m 644 tools/fleet/$$part '$(to)/share/clearmap/fleet/'$$part || exit 1; \
	done
	ln -sf ../share/clearmap/gateway/clearmap_gateway.py '$(to)/bin/clearmap-gateway'
	ln -sf ../share/clearmap/fleet/clearmap_publish.py '$(to)/bin/clearmap-publish'
	ln -sf ../share/clearmap/python/clearmap_ros.py '$(to)/bin/clearmap-ros'
	ln -sf ../share/clearmap/python/clearmap_node.py '$(to)/bin/clearmap-ros-node'
	ln -sf ../share/clearmap/view/clearmap_view.py '$(to)/bin/clearmap-view'
	$(INSTALL) -D -m 644 clients/cpp/clearmap.hpp '$(to)/include/clearmap.hpp'
	$(INSTALL) -d '$(to)/share/clearmap/cmake' '$(to)/share/pkgconfig' '$(to)/lib/systemd/system'
	for part in clearmapConfig.cmake clearmapConfigVersion.cmake; do \
	    $(filled) packaging/$$part.in > '$(to)/share/clearmap/cmake/'$$part || exit 1; \
	done
	$(filled) packaging/clearmap.pc.in > '$(to)/share/pkgconfig/clearmap.pc'
	$(filled) packaging/clearmap@.service > '$(to)/lib/systemd/system/clearmap@.service'
	$(INSTALL) -D -m 644 LICENSE '$(to)/share/doc/clearmap/LICENSE'

uninstall-program:
	rm -f '$(to)/bin/clearmap' '$(to)/bin/clearmap-backup' '$(to)/bin/clearmap-ros' '$(to)/bin/clearmap-ros-node' '$(to)/bin/clearmap-view' '$(to)/share/man/man7/clearmap-protocol.7' \
	    '$(to)/share/bash-completion/completions/clearmap' '$(to)/share/pkgconfig/clearmap.pc' '$(to)/lib/systemd/system/clearmap@.service'
	for page in $(pages); do rm -f '$(to)/share/man/man1/'$$page; done
	rm -f '$(to)/bin/clearmap-gateway' '$(to)/bin/clearmap-publish'
	rm -f '$(to)/share/clearmap/package.xml'
	for part in python view gateway fleet ros examples; do rm -rf '$(to)/share/clearmap/'$$part; done
	rm -rf '$(to)/share/doc/clearmap'
	[ -e '$(to)/include/clearmap.h' ] || rm -rf $(shared)

deb: all lib
	tools/package/make_deb.sh packages

# For this machine, and for ARM where that library is built too.
wheel: all lib
	clients/python/build_wheel.py packages

# From a clone whose gate has passed: .ci/run 2>&1 | tee gate.log
release: release-check all lib
	tools/package/make_release.sh packages gate.log

release-check:
	tools/package/make_release.sh --check gate.log

lib: $(library)/libclearmap.a $(library)/libclearmap.so.2

$(archive): $(lib_sources)
	cd crates/libclearmap && rt lib
	touch $@

$(library)/clearmap.o: clients/c/clearmap.c clients/c/clearmap.h $(archive)
	$(CC) $(lib_cflags) -c -o $@ clients/c/clearmap.c

# One object, which shows its calls and nothing of its heap, as the shared library does: another
# library from rt in the same program has names of its own.
$(library)/libclearmap.a: $(archive) $(library)/clearmap.o
	$(CC) -r -nostdlib -o $(library)/whole.o $(library)/clearmap.o \
	    -Wl,--whole-archive $(archive) -Wl,--no-whole-archive
	$(OBJCOPY) --wildcard --keep-global-symbol='clearmap_*' $(library)/whole.o
	rm -f $@
	$(AR) rcs $@ $(library)/whole.o

$(library)/libclearmap.so.2: $(archive) $(library)/clearmap.o clients/c/clearmap.map Makefile
	$(CC) -shared $(lib_links) -o $@ $(library)/clearmap.o \
	    -Wl,--whole-archive $(archive) -Wl,--no-whole-archive

# rt writes the archive of each processor to one place: this one is moved, and the other one is put
# back. Wants Debian's gcc-aarch64-linux-gnu.
lib-arm: $(arm)/liblibclearmap.a
	$(MAKE) lib library=$(arm) CC=aarch64-linux-gnu-gcc AR=aarch64-linux-gnu-ar \
	    OBJCOPY=aarch64-linux-gnu-objcopy

$(arm)/liblibclearmap.a: $(lib_sources)
	$(INSTALL) -d $(arm)
	[ ! -e $(archive) ] || cp -p $(archive) $(arm)/other.a
	cd crates/libclearmap && rt lib --target aarch64-unknown-linux-gnu
	mv $(archive) $@
	touch $@
	[ ! -e $(arm)/other.a ] || mv $(arm)/other.a $(archive)

install-lib: lib
	$(INSTALL) -D -m 644 clients/c/clearmap.h '$(to)/include/clearmap.h'
	for header in $(headers); do \
	    $(INSTALL) -m 644 clients/cpp/$$header '$(to)/include/'$$header || exit 1; \
	done
	$(INSTALL) -D -m 644 $(library)/libclearmap.a '$(libdir)/libclearmap.a'
	$(INSTALL) -m 644 $(library)/libclearmap.so.2 '$(libdir)/libclearmap.so.2'
	ln -sf libclearmap.so.2 '$(libdir)/libclearmap.so'
	$(INSTALL) -d '$(DESTDIR)$(PKGCONFIGDIR)' '$(to)/share/clearmap/cmake'
	$(filled) packaging/libclearmap.pc.in > '$(DESTDIR)$(PKGCONFIGDIR)/libclearmap.pc'
	for part in clearmapConfig.cmake clearmapConfigVersion.cmake; do \
	    $(filled) packaging/$$part.in > '$(to)/share/clearmap/cmake/'$$part || exit 1; \
	done

uninstall-lib:
	rm -f '$(to)/include/clearmap.h' '$(libdir)/libclearmap.a' '$(libdir)/libclearmap.so.2' \
	    '$(libdir)/libclearmap.so' '$(DESTDIR)$(PKGCONFIGDIR)/libclearmap.pc'
	for header in $(filter-out clearmap.hpp,$(headers)); do rm -f '$(to)/include/'$$header; done
	[ -e '$(to)/bin/clearmap' ] || rm -rf $(shared)
