# Installs the program with its page, the completions of the shells and the examples, and the library for C with what other languages
# call it by; and makes Debian packages of them.
#
#     make install PREFIX=$HOME/.local      below that folder; /usr/local where none is given
#     make install DESTDIR=folder           the same below another root, for who makes packages
#     make uninstall                        with the same PREFIX and DESTDIR: takes all of it away, and the folders that it made
#     make deb                              out/egw_VERSION_ARCHITECTURE.deb, and libegw-dev_VERSION_ARCHITECTURE.deb beside it
#     make library                          for who changes the library: proves it, and builds the archive that installs from then on
#
# The program is the one that EGW names, or else the one that ./egw runs: what was built here, or the release. So it is with the library:
# what make library built, if it is newer than its sources, or else that of the release. Where you install for all, as root, run ldconfig
# after it. The version stands in the file VERSION alone.
PREFIX = /usr/local
DESTDIR =
ZSH = share/zsh/site-functions
made = out/packaging
below = "$(DESTDIR)$(PREFIX)"

all:
	@packaging/prepare $(made)

library:
	@packaging/archive

install: all
	@packaging/place $(made) $(below) $(ZSH)

uninstall:
	@packaging/remove $(below) $(ZSH)

deb: all
	@packaging/deb $(made)

clean:
	rm -rf $(made) out/egw_*.deb out/libegw-dev_*.deb

.PHONY: all library install uninstall deb clean
