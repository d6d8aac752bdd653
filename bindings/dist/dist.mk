# What can be fetched: `make dist` packs the proved library, and each package over it, for users without the toolchain.
# dist/README.md says what is made; it is in $(OUT)/dist. bindings/Makefile includes this file; nothing here is made
# unless it is asked for by name.
#
#   make dist PROGRAM= MAINTAINER= SOURCE_DATE_EPOCH=    needs what `make file` needs, and the verdict of the archive
#
# PROGRAM is the program; where it is not there, or older than its sources, it is left out. MAINTAINER is whom the
# packages for Debian name. SOURCE_DATE_EPOCH is the time of all files that are made: that of the last commit, where it
# is not set.

PROGRAM    ?= ../crates/hlcstore/out/hlcstore
MAINTAINER ?= The hlcstore authors <authors@hlcstore.invalid>
RELEASE    := hlcstore-$(VERSION)-linux-x86_64

# A name may have any character, so no shell reads it.
export MAINTAINER

# What is made is in the first folder, what it is made of in the second, and as installed in the third one.
dist_folder := $(OUT)/dist
dist_built  := $(OUT)/built
dist_staged := $(OUT)/staged
# The folder of the checkout would be a part of the build id of a library.
dist_flags  := -D_FORTIFY_SOURCE=2 -fstack-protector-strong "-ffile-prefix-map=$(abspath ..)=."
dist_time    = $(or $(SOURCE_DATE_EPOCH),$(shell git log -1 --format=%ct))
dist_words   = VERSION='$(VERSION)' KIT='$(KIT)' VERDICT='$(known_verdict)' SOURCE_DATE_EPOCH='$(dist_time)'

# $(call stage,FOLDER,PREFIX,LIBDIR): installs all for this prefix, below a folder. PWD may be another name of the
# checkout, which the compiler would take.
define stage
	+PWD='$(CURDIR)' $(MAKE) -s install install-file OUT='$(dist_built)' CFLAGS='$(dist_flags)' \
	    DESTDIR='$(dist_staged)/$(1)' PREFIX='$(2)' LIBDIR='$(3)' INCLUDEDIR='$(2)/include' DATADIR='$(2)/share'
endef

dist: dist-proved
	rm -rf $(dist_folder) $(dist_built) $(dist_staged)
	mkdir -p $(dist_folder) $(dist_staged)
	$(call stage,unpacked,/$(RELEASE),/$(RELEASE)/lib)
	$(call stage,debian,/usr,/usr/lib/x86_64-linux-gnu)
	$(dist_words) dist/program '$(PROGRAM)' $(dist_staged)/unpacked/$(RELEASE) $(dist_staged)/debian/usr
	$(dist_words) dist/tarball $(dist_staged)/unpacked/$(RELEASE) $(dist_folder)
	$(dist_words) dist/debs $(dist_staged)/debian $(dist_staged)/unpacked/$(RELEASE) $(dist_folder)
	$(dist_words) dist/wheel $(dist_built) $(dist_folder)
	$(dist_words) dist/crates $(dist_folder)
	$(dist_words) dist/module $(dist_folder)
	cd $(dist_folder) && export LC_ALL=C && sha256sum * >../SHA256SUMS && mv ../SHA256SUMS .
	rm -rf $(dist_built) $(dist_staged)

# What the toolchain said of the archive is known, it is for each x86-64 processor, and the archive and the sources are
# those that it lists. The toolchain names a processor (cpu=) only where the archive does not run on each of its target.
dist-proved: $(FFI)
	@echo '$(dist_time)' | grep -qx '[0-9][0-9]*' || \
	    { echo 'SOURCE_DATE_EPOCH is no number of seconds, or it is empty and git names no last commit' >&2; exit 1; }
	@test -n '$(known_verdict)' || \
	    { echo 'the verdict of $(FFI) is not known: VERDICT=FILE names a file that has it' >&2; exit 1; }
	@grep '^logic=proved ' '$(known_verdict)' | tail -n 1 | \
	    grep ' target=x86_64-unknown-linux-gnu ' | grep -qv ' cpu=' || \
	    { echo '$(known_verdict) does not say that the archive is proved, and for each x86-64 processor' >&2; exit 1; }
	@dist/sources --same hlc_ffi '$(FFI)' '$(known_verdict)'

.PHONY: dist dist-proved
