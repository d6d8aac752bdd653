# libhlcstore-file, which bindings/Makefile includes: nothing here is made unless it is asked for by name.

FILE_HEADER  := file/hlcstore_file.h
FILE_VERSION := $(shell sed -n 's/^.define HLC_FILE_VERSION "\(.*\)"$$/\1/p' $(FILE_HEADER))
FILE_SONAME  := libhlcstore-file.so.$(call abi_of,$(FILE_VERSION))
FILE_SHARED  := libhlcstore-file.so.$(FILE_VERSION)
FILE_FLAGS   := -std=c11 -O2 -g -Wall -Wextra -fPIC -pthread
FILE_NEEDS   := -lsqlite3 -lz -pthread

file_objects := $(patsubst file/%.c,$(OUT)/file/%.o,$(wildcard file/*.c))

file: $(OUT)/libhlcstore-file.a $(OUT)/$(FILE_SHARED) $(OUT)/include/hlcstore_file.h $(OUT)/hlcstore-file.pc

$(OUT)/file:
	mkdir -p $@

$(OUT)/include/hlcstore_file.h: $(FILE_HEADER) | $(OUT)/include/hlcstore
	cp $< $@

$(OUT)/file/%.o: file/%.c file/file.h $(FILE_HEADER) $(wildcard ../include/*.h) | $(OUT)/file
	$(CC) $(CPPFLAGS) $(CFLAGS) $(FILE_FLAGS) -I../include -c -o $@ $<

# One object, in which only the names of the header are global.
$(OUT)/hlcstore_file.o: $(file_objects)
	$(LD) -r -o $(OUT)/file/whole.o $^
	$(OBJCOPY) --wildcard --keep-global-symbol='hlc_file_*' $(OUT)/file/whole.o $@

$(OUT)/libhlcstore-file.a: $(OUT)/hlcstore_file.o
	rm -f $@
	$(AR) rcsD $@ $<

$(OUT)/$(FILE_SHARED): $(OUT)/hlcstore_file.o file/hlcstore-file.map $(shared)
	$(CC) -shared $(LDFLAGS) -o $@ $< -L$(OUT) -lhlcstore $(FILE_NEEDS) \
	    -Wl,--version-script=file/hlcstore-file.map -Wl,-soname,$(FILE_SONAME) \
	    -Wl,-z,defs -Wl,-z,relro,-z,now
	ln -f $@ $(OUT)/$(FILE_SONAME)
	ln -f $@ $(OUT)/libhlcstore-file.so

$(OUT)/hlcstore-file.pc: file/hlcstore-file.pc.in FORCE | $(OUT)
	@$(fill) -e 's|@FILE_VERSION@|$(FILE_VERSION)|' $< >$@

install-file: file
	$(INSTALL) -d '$(to_lib)' '$(to_pc)' '$(to_include)'
	$(INSTALL) -m 644 $(OUT)/include/hlcstore_file.h '$(to_include)'
	$(INSTALL) -m 644 $(OUT)/libhlcstore-file.a '$(to_lib)'
	$(INSTALL) -m 755 $(OUT)/$(FILE_SHARED) '$(to_lib)'
	ln -sf $(FILE_SHARED) '$(to_lib)/$(FILE_SONAME)'
	ln -sf $(FILE_SONAME) '$(to_lib)/libhlcstore-file.so'
	$(INSTALL) -m 644 $(OUT)/hlcstore-file.pc '$(to_pc)'

uninstall-file:
	rm -f '$(to_include)/hlcstore_file.h' '$(to_lib)/libhlcstore-file.a' '$(to_pc)/hlcstore-file.pc'
	rm -f '$(to_lib)/libhlcstore-file.so' '$(to_lib)/$(FILE_SONAME)' '$(to_lib)/$(FILE_SHARED)'

.PHONY: file install-file uninstall-file
