# make            builds the programs `spike` and `spike-show`, which takes a while from nothing
# make check      runs all checks
# make install    puts the programs, the tools, the man pages and the completions below PREFIX
# make uninstall  takes them away again
PREFIX = /usr/local
TOP = $(DESTDIR)$(PREFIX)
LIB = $(TOP)/lib/spike
PROGRAM = crates/spike/out/spike
SHOWS = crates/spike_show/out/spike_show
TOOLS = where order expect
MODULES = cures left_over lookalikes marks order_cures orders rule_cures sort_cures syntax_cures texts

all: $(PROGRAM) $(SHOWS)

$(PROGRAM):
	tools/build

$(SHOWS):
	tools/build --crate spike_show

check:
	sh .ci/run

install: $(PROGRAM) $(SHOWS)
	install -d "$(TOP)/bin" "$(LIB)/tools" "$(TOP)/share/man/man1"
	install -d "$(TOP)/share/bash-completion/completions" "$(TOP)/share/zsh/site-functions"
	install -m 755 $(PROGRAM) "$(LIB)/program"
	install -m 755 spike "$(LIB)/spike"
	install -m 755 $(SHOWS) "$(LIB)/show-program"
	install -m 755 spike-show "$(LIB)/spike-show"
	install -m 755 $(TOOLS:%=tools/%) tools/explain "$(LIB)/tools"
	install -m 644 $(MODULES:%=tools/%.py) "$(LIB)/tools"
	ln -sf ../lib/spike/spike "$(TOP)/bin/spike"
	ln -sf ../lib/spike/spike-show "$(TOP)/bin/spike-show"
	for tool in $(TOOLS); do ln -sf "../lib/spike/tools/$$tool" "$(TOP)/bin/spike-$$tool" || exit; done
	install -m 644 docs/spike.1 docs/spike-show.1 "$(TOP)/share/man/man1"
	install -m 644 shell/spike.bash "$(TOP)/share/bash-completion/completions/spike"
	install -m 644 shell/_spike "$(TOP)/share/zsh/site-functions/_spike"

uninstall:
	rm -rf "$(LIB)"
	rm -f "$(TOP)/bin/spike" "$(TOP)/bin/spike-show" $(TOOLS:%="$(TOP)/bin/spike-%")
	rm -f "$(TOP)/share/man/man1/spike.1" "$(TOP)/share/man/man1/spike-show.1"
	rm -f "$(TOP)/share/bash-completion/completions/spike"
	rm -f "$(TOP)/share/zsh/site-functions/_spike"

.PHONY: all check install uninstall
