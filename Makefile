# The few things people type. rt knows by itself what is unchanged since it was proved, so nothing here goes by the time of a file.
#   make                            the two programs and the library for hosts, proved: target/bin, target/staticlib
#   make check                      the gate
#   make bench [BEFORE=ARCHIVE]     the benchmark, beside another archive of the library if one is named
#   make install [PREFIX=/usr/local] [DESTDIR=]    what make has built, the header and a pkg-config file
#   make uninstall [PREFIX=/usr/local] [DESTDIR=]
PREFIX ?= /usr/local
prefix := $(abspath $(PREFIX))
into := $(DESTDIR)$(prefix)
programs := target/bin/marks target/bin/answers
library := target/staticlib/libforfochry.a

.PHONY: all check bench install uninstall
.NOTPARALLEL:

# The programs first, so that the last thing rt says is how the library is proved.
all:
	tools/build.sh marks answers forfochry

check:
	bash .ci/run

bench:
	bash tests/benchmark/run.sh "" $(BEFORE)

# Builds nothing, so that root has nothing to prove.
install:
	@ls $(programs) $(library) >/dev/null || { echo "make install: build what isn't there first, with: make"; exit 1; }
	install -d $(into)/bin $(into)/include $(into)/lib/pkgconfig
	install -m 755 $(programs) $(into)/bin
	install -m 644 include/forfochry.h $(into)/include
	install -m 644 $(library) $(into)/lib
	sed -e 's|@PREFIX@|$(prefix)|' -e "s|@VERSION@|$$(cat VERSION)|" include/forfochry.pc.in >$(into)/lib/pkgconfig/forfochry.pc
	chmod 644 $(into)/lib/pkgconfig/forfochry.pc

uninstall:
	rm -f $(addprefix $(into)/,bin/marks bin/answers include/forfochry.h lib/libforfochry.a lib/pkgconfig/forfochry.pc)
