# libbogtrumpet.a: the node's calls and the rules without state as two objects of one archive, so that a program that calls only a rule
# links none of the node. `rt lib` proves a crate before it compiles it: the archive is made anew only where a source is newer, and what fails
# leaves no archive.
PREFIX = /usr/local
DESTDIR =
AR = ar
CC = cc

LIBRARY = target/staticlib/libbogtrumpet.a
SHARED = target/staticlib/libbogtrumpet.so
OBJECTS = target/staticlib/objects
HEADER = include/bogtrumpet.h

# bogtrumpetd, the host, and once more under the sanitizers
HOST = target/host/bogtrumpetd
HOST_SOURCES = $(wildcard host/*.c)
HOST_FLAGS = -std=c11 -D_GNU_SOURCE -Iinclude -O2 -g -fPIE -pie -fstack-protector-strong -Wl,-z,relro,-z,now \
    -Wall -Wextra -Wshadow -Wconversion -Wsign-conversion -Wstrict-prototypes -Werror
VERSION = $(shell sed -n 's/^.define BOGTRUMPET_VERSION "\(.*\)"$$/\1/p' $(HEADER))

# the crates that the two are made of: what crates.txt names for them, and so on down
CRATES = $(shell sed -n 's/^\([a-z_]*\)\( staticlib\)\{0,1\}:\(.*\)/\1 \3/p' crates.txt | awk \
    '{ for (i = 2; i <= NF; i++) needs[$$1] = needs[$$1] " " $$i } \
     function take(c,   n, parts, i) { if (c in taken) return; taken[c] = 1; n = split(needs[c], parts, " "); for (i = 1; i <= n; i++) take(parts[i]) } \
     END { take("bogtrumpet"); take("bogtrumpet_rules"); for (c in taken) print c }')
SOURCES = crates.txt $(shell find $(wildcard $(CRATES:%=crates/%)) -name out -prune -o \( -name '*.rt' -o -name '*.antt' \) -print)
ALL_SOURCES = crates.txt $(shell find crates -name out -prune -o \( -name '*.rt' -o -name '*.antt' \) -print)
PROGRAMS = tunnel replay recordings

all: $(LIBRARY)

$(LIBRARY): $(SOURCES)
	rm -rf $(OBJECTS) && mkdir -p $(OBJECTS)/node $(OBJECTS)/rules
	cd crates/bogtrumpet && rt lib
	cd $(OBJECTS)/node && $(AR) x ../../../../crates/bogtrumpet/out/libbogtrumpet.a
	cd crates/bogtrumpet_rules && rt lib
	cd $(OBJECTS)/rules && $(AR) x ../../../../crates/bogtrumpet_rules/out/libbogtrumpet_rules.a
	$(AR) rcsD $@ $(OBJECTS)/node/*.o $(OBJECTS)/rules/*.o

# The programs: `rt run` proves one before it builds it and runs it.
$(PROGRAMS:%=target/bin/%): target/bin/%: $(ALL_SOURCES)
	mkdir -p target/bin
	cd crates/$* && rt run < stdin > /dev/null
	cp crates/$*/out/$* $@

programs: $(PROGRAMS:%=target/bin/%)

# the archive as one shared object, for bogtrumpet-tool
$(SHARED): $(LIBRARY)
	$(CC) -shared -nostartfiles -Wl,--whole-archive $(LIBRARY) -Wl,--no-whole-archive -o $@

$(HOST): $(HOST_SOURCES) host/bogtrumpetd.h $(HEADER) $(LIBRARY)
	mkdir -p target/host
	$(CC) $(HOST_FLAGS) $(CFLAGS) $(HOST_SOURCES) $(LIBRARY) -o $@

$(HOST)-checked: $(HOST_SOURCES) host/bogtrumpetd.h $(HEADER) $(LIBRARY)
	mkdir -p target/host
	$(CC) $(HOST_FLAGS) -fsanitize=address,undefined -fno-sanitize-recover=all $(HOST_SOURCES) $(LIBRARY) -o $@

host: $(HOST)

host-checked: $(HOST)-checked

bogtrumpet.pc: Makefile $(HEADER)
	mkdir -p target
	printf '%s\n' 'prefix=$(PREFIX)' 'includedir=$${prefix}/include' 'libdir=$${prefix}/lib' '' 'Name: bogtrumpet' \
	    'Description: ISATAP tunnel ends (RFC 5214), one or two in a box, proved' 'Version: $(VERSION)' 'Cflags: -I$${includedir}' \
	    'Libs: -L$${libdir} -lbogtrumpet' > target/$@

# The shared object goes beside the tool's modules and not to lib/, where the linker would take it in the archive's place.
install: $(LIBRARY) $(SHARED) $(HOST) bogtrumpet.pc
	install -d $(addprefix $(DESTDIR)$(PREFIX)/,bin sbin include lib/pkgconfig lib/bogtrumpet/bogtrumpet_tool lib/systemd/system \
	    share/man/man1 share/man/man5 share/man/man8 share/doc/bogtrumpet)
	install -m 644 $(HEADER) $(DESTDIR)$(PREFIX)/include/
	install -m 644 $(LIBRARY) $(DESTDIR)$(PREFIX)/lib/
	install -m 644 target/bogtrumpet.pc $(DESTDIR)$(PREFIX)/lib/pkgconfig/
	install -m 755 tools/bogtrumpet-tool $(DESTDIR)$(PREFIX)/bin/
	install -m 644 tools/bogtrumpet_tool/*.py $(DESTDIR)$(PREFIX)/lib/bogtrumpet/bogtrumpet_tool/
	install -m 755 $(SHARED) $(DESTDIR)$(PREFIX)/lib/bogtrumpet/
	install -m 644 tools/bogtrumpet-tool.1 $(DESTDIR)$(PREFIX)/share/man/man1/
	install -m 755 $(HOST) $(DESTDIR)$(PREFIX)/sbin/
	install -m 644 host/bogtrumpetd.conf.5 $(DESTDIR)$(PREFIX)/share/man/man5/
	install -m 644 host/bogtrumpetd.8 $(DESTDIR)$(PREFIX)/share/man/man8/
	install -m 644 host/bogtrumpetd.conf $(DESTDIR)$(PREFIX)/share/doc/bogtrumpet/
	sed 's|/usr/sbin/|$(PREFIX)/sbin/|' host/bogtrumpetd.service > $(DESTDIR)$(PREFIX)/lib/systemd/system/bogtrumpetd.service

clean:
	rm -rf target/staticlib target/bin target/host target/bogtrumpet.pc

.DELETE_ON_ERROR:
.PHONY: all programs host host-checked install clean bogtrumpet.pc
