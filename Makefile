# Installs the programs, the package in floor/, the scripts of farm/, their pages of the manual, completions, editors' files, examples
# and docs.
#
#     make install PREFIX=$HOME/.local      into bin, lib/stil and share of a folder; DESTDIR goes before it
#     make uninstall PREFIX=$HOME/.local    takes them away again
#     make dist                             makes an archive of them in dist/, which runs where there is a C library
#     make deb                              makes a Debian package of them in dist/
#     make vsix                             makes the extension for VS Code in dist/
#
# DIST=DIR names another folder than dist/. A program is the one in release/ where it is of these sources, else the one that was built and
# proved here; `lots` is left out where neither is there, and what is made of stilfloor's help where there is no python3.

PREFIX ?= /usr/local
DIST ?= dist
# (what names a folder is a variable of the shell, and no text of make or of a script, whatever it holds)
export place = $(value DESTDIR)$(value PREFIX)
export made = $(value DIST)
unexport PREFIX DESTDIR DIST
program = $(shell tools/program)
lots = $(shell tools/program lots)
archive = stil-x86_64-linux-gnu
# what runs lots in parts
farm = $(shell find farm -maxdepth 1 -type f)
# the package in floor/, and what prints its page of the manual and its completions
floor = $(shell cd floor && find stilfloor src editors -name '__pycache__' -prune -o -type f -print)
manual = PYTHONDONTWRITEBYTECODE=1 PYTHONPATH=floor/src python3 -m stilfloor.manual
# the folders of examples and docs, with what a user reads of them
pages = README.md $(wildcard CHANGELOG.md LICENSE-APACHE LICENSE-MIT release/VERSION release/README.md) $(shell find docs -name '*.md' -o -name '*.png' -o -name '*.ipynb')
samples = $(shell find examples editors/textmate editors/vscode editors/emacs editors/neovim -type f 2> /dev/null)

all:
	@echo "nothing is to be made: ./stil runs at once. make install PREFIX=.. installs it; ./stil --prove proves and builds it"

install:
	@test -n "$(program)" || { echo "no program of these sources is here: run ./stil --prove first" >&2; exit 1; }
	install -d "$$place/bin" "$$place/lib/stil" "$$place/share/man/man1"
	install -m 755 "$(program)" "$$place/lib/stil/stil"
	install -m 644 tools/help "$$place/lib/stil/help"
	./stil --version > "$$place/lib/stil/version"
	cat tools/installed tools/words tools/launch > "$$place/bin/stil"
	chmod 755 "$$place/bin/stil"
	tools/man > "$$place/share/man/man1/stil.1"
	@test -n "$(lots)" || echo "no lots of these sources is here, so it is left out: ./lots --prove builds it"
	test -z "$(lots)" || $(MAKE) --no-print-directory install-lots
	$(MAKE) --no-print-directory install-floor
	install -D -m 644 completions/stil.bash "$$place/share/bash-completion/completions/stil"
	install -D -m 644 completions/stil.zsh "$$place/share/zsh/site-functions/_stil"
	install -D -m 644 completions/stil.fish "$$place/share/fish/vendor_completions.d/stil.fish"
	for file in $$(cd editors/vim && find . -name '*.vim'); do install -D -m 644 "editors/vim/$$file" "$$place/share/vim/vimfiles/$$file"; done
	install -D -m 644 floor/editors/stilfloor.vim "$$place/share/vim/vimfiles/compiler/stilfloor.vim"
	@for file in $(samples) $(pages); do install -D -m 644 "$$file" "$$place/share/stil/$$file"; done

install-lots:
	install -m 755 "$(lots)" "$$place/lib/stil/lots"
	install -m 644 tools/help-lots "$$place/lib/stil/help-lots"
	./lots --version > "$$place/lib/stil/version-lots"
	sed 's/^name=stil$$/name=lots/' "$$place/bin/stil" > "$$place/bin/lots"
	chmod 755 "$$place/bin/lots"
	tools/man lots > "$$place/share/man/man1/lots.1"
	install -D -m 644 completions/lots.bash "$$place/share/bash-completion/completions/lots"
	install -D -m 644 completions/lots.zsh "$$place/share/zsh/site-functions/_lots"
	install -D -m 644 completions/lots.fish "$$place/share/fish/vendor_completions.d/lots.fish"
	install -d "$$place/lib/stil/farm"
	install -m 755 $(filter-out %.py,$(farm)) "$$place/lib/stil/farm"
	install -m 644 $(filter %.py,$(farm)) "$$place/lib/stil/farm"
	for name in lot grade; do ln -sf "../lib/stil/farm/$$name" "$$place/bin/farm-$$name"; done
	tools/man farm > "$$place/share/man/man1/farm-lot.1"
	echo ".so man1/farm-lot.1" > "$$place/share/man/man1/farm-grade.1"

install-floor:
	@for file in $(floor); do install -D -m 644 "floor/$$file" "$$place/lib/stil/floor/$$file"; done
	chmod 755 "$$place/lib/stil/floor/stilfloor"
	ln -sf ../lib/stil/floor/stilfloor "$$place/bin/stilfloor"
	@command -v python3 > /dev/null || echo "python3 is missing, so the page of the manual and the completions of stilfloor are left out"
	command -v python3 > /dev/null || exit 0; $(manual) man > "$$place/share/man/man1/stilfloor.1" && \
	    install -d "$$place/share/bash-completion/completions" "$$place/share/zsh/site-functions" "$$place/share/fish/vendor_completions.d" && \
	    $(manual) bash > "$$place/share/bash-completion/completions/stilfloor" && \
	    $(manual) zsh > "$$place/share/zsh/site-functions/_stilfloor" && \
	    $(manual) fish > "$$place/share/fish/vendor_completions.d/stilfloor.fish"

uninstall:
	for name in stil lots stilfloor farm-lot farm-grade; do rm -f "$$place/bin/$$name" "$$place/share/man/man1/$$name.1" \
	    "$$place/share/bash-completion/completions/$$name" "$$place/share/zsh/site-functions/_$$name" \
	    "$$place/share/fish/vendor_completions.d/$$name.fish"; done
	for file in $$(cd editors/vim && find . -name '*.vim'); do rm -f "$$place/share/vim/vimfiles/$$file"; done
	rm -f "$$place/share/vim/vimfiles/compiler/stilfloor.vim"
	rm -rf "$$place/lib/stil" "$$place/share/stil"

dist:
	rm -rf "$$made/$(archive)"
	mkdir -p "$$made"
	$(MAKE) --no-print-directory install DESTDIR= PREFIX="$$made/$(archive)"
	tar -C "$$made" --sort=name --owner=0 --group=0 --numeric-owner --mtime="@$$(git log -1 --format=%ct 2> /dev/null || echo 0)" \
	    -cf - $(archive) | gzip -n > "$$made/$(archive).tar.gz"
	cd "$$made" && sha256sum $(archive).tar.gz > $(archive).tar.gz.sha256

deb:
	rm -rf "$$made/deb"
	mkdir -p "$$made/deb"
	$(MAKE) --no-print-directory install DESTDIR="$$made/deb" PREFIX=/usr
	tools/deb "$$made/deb" "$$made"

vsix:
	mkdir -p "$$made"
	tools/vsix "$$made"

.PHONY: all install install-lots install-floor uninstall dist deb vsix
