# make install PREFIX=/usr/local [DESTDIR=..]: puts the program under the name `ringcheck`, where it is proved from the sources as they
# stand, with its manual, its guide and two boards to try, its completions, the stamp of its proof and the script for many boards. The
# launcher ends with status 5 where it is not proved, and then nothing is installed; nor is a program that is not the one of the stamp.
# make uninstall takes all of it away; make deb makes a Debian package of it. make kicad LICENSE=WORD makes a package of the plugin alone for
# KiCad's content manager.
PREFIX ?= /usr/local
VERSION := $(shell cat VERSION)
root = $(DESTDIR)$(PREFIX)
documents = $(root)/share/doc/ringcheck
pages := docs/GUIDE.md docs/FORMATS.md docs/JSON.md docs/TRUST.md docs/ringcheck.schema.json docs/board.svg
boards := $(wildcard $(foreach it,csv gbr drl,examples/first/*.$(it) examples/spans/*.$(it) examples/board/*.$(it) examples/board/gerbers/*.$(it)))
shared := extras/junit.jq extras/github.jq extras/gitlab.jq $(wildcard extras/kicad/*.py) extras/kicad/README.md extras/ci/github.yml extras/ci/gitlab.yml
installed = bin/ringcheck bin/ringcheck-each share/doc/ringcheck/proved share/man/man1/ringcheck.1 share/man/man1/ringcheck-each.1 \
  $(patsubst extras/%,share/ringcheck/%,$(shared:packaging/%=share/ringcheck/%)) share/bash-completion/completions/ringcheck share/zsh/site-functions/_ringcheck \
  share/fish/vendor_completions.d/ringcheck.fish $(pages:docs/%=share/doc/ringcheck/%) $(boards:%=share/doc/ringcheck/%)

.PHONY: build install uninstall deb kicad test
build:
	./ringcheck --help > /dev/null

install: build
	packaging/install_program "$(root)"
	install -d $(foreach it,$(sort $(dir $(installed))),"$(root)/$(it)")
	install -m 755 packaging/ringcheck-each "$(root)/bin/ringcheck-each"
	sed 's/@VERSION@/$(VERSION)/' packaging/ringcheck.1 > "$(root)/share/man/man1/ringcheck.1"
	sed 's/@VERSION@/$(VERSION)/' packaging/ringcheck-each.1 > "$(root)/share/man/man1/ringcheck-each.1"
	chmod 644 "$(root)/share/man/man1/ringcheck.1" "$(root)/share/man/man1/ringcheck-each.1"
	install -m 644 $(pages) "$(documents)"
	for board in $(boards); do install -m 644 "$$board" "$(documents)/$$board" || exit 1; done
	for it in $(shared); do below=$${it#*/}; install -m 644 "$$it" "$(root)/share/ringcheck/$$below" || exit 1; done
	install -m 644 packaging/completions/ringcheck.bash "$(root)/share/bash-completion/completions/ringcheck"
	install -m 644 packaging/completions/_ringcheck "$(root)/share/zsh/site-functions/_ringcheck"
	install -m 644 packaging/completions/ringcheck.fish "$(root)/share/fish/vendor_completions.d/ringcheck.fish"

uninstall:
	rm -f $(foreach it,$(installed),"$(root)/$(it)")
	-rmdir "$(root)/share/ringcheck"/* "$(root)/share/ringcheck" "$(documents)"/examples/*/gerbers "$(documents)"/examples/* "$(documents)/examples" "$(documents)"

deb: build
	packaging/make_deb out

kicad:
	packaging/make_kicad out "$(LICENSE)"

test:
	./test
