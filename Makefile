# make demo     builds rx without its proofs, in a few minutes, and holds two dialogues of the examples,
#               one by its record and live, the other by its record
# make rx       proves and builds the programs to out/rx and out/rx-explain
# make install  puts both, their man pages, documents and examples under PREFIX (PREFIX=/usr/local DESTDIR=)
# make uninstall  removes what make install put there
# make deb      makes a Debian package of out/rx and all that make install puts in place: out/rx_*.deb
# make test     the gate: every proof from nothing, the must-fail edits, the tests and the programs (JOBS=N at once)
# Beside the gate:
# make house    rules of this repository that the prover does not know, its links and its tables of
#               commands, in a moment
# make guide    runs what the README, the guide and the man page show, and compares (RX=out/rx)
# make stories  runs the scripts of stories/ and the examples under their records, and looks what out/rx-explain
#               tells of them; and these and all rows by out/rx too, and looks whether both do the same
# make rows     runs the rows, and writes how many there are to the stored output of rowtests
# make rows-now runs them as they stand, without any proof, in a few minutes (FAMILIES="leaving logs")
# make tests-now  runs programs of tests without any proof, and compares what they print (CRATES="parts_tests")
# make edits    the edits of edits/ that the prover must refuse, for the crates that changed (SINCE=COMMIT)
# make live     out/rx against programs and servers of the distribution
# make compare  random scripts against tclsh8.6, dialogues against expect (SCRIPTS=N, DIALOGUES=N, SEED=S)
# make bench    times of out/rx beside those of tclsh8.6 and jimsh, and dialogues beside expect, with
#               instructions; what is printed is kept in bench/results by its date
# make soak     long dialogues, live: whether something is lost and whether memory grows
.PHONY: demo rx install built install-documents uninstall deb test house guide stories rows rows-now tests-now edits live \
	compare bench soak clean

FIRST := $(CURDIR)/examples/hello-cat
PREFIX ?= /usr/local
SHARE = $(DESTDIR)$(PREFIX)/share
DOCUMENTS = $(SHARE)/doc/rx
# The folders whose README.md is linked from the documents, beside those of the crates.
LINKED := live bench compare rows
RX ?= out/rx
SCRIPTS ?= 100000
DIALOGUES ?= 150
SEED ?= 1

# A case is a script of the examples, which is standard input, with its words (tools/demo) and what it has to print.
DEMO := $(CURDIR)/out/demo
CASES := hello-by-its-record=hello-cat hello-live=hello-cat installer-by-its-record=installer-prompts
demo:
	@echo "Builds rx without its proofs, which takes a few minutes, and then holds three dialogues of the"
	@echo "examples: hello-cat by its record, hello-cat live with cat, installer-prompts by its record."
	@echo "A line for each says whether it printed what it has to (output=expected)."
	@rm -rf $(DEMO) && mkdir -p $(DEMO) && cp tools/demo/*.args $(DEMO)
	@for case in $(CASES); do \
		cp examples/$${case#*=}/script.exp $(DEMO)/$${case%=*} && \
		cp examples/$${case#*=}/stdout $(DEMO)/$${case%=*}.stdout || exit 1; \
	done
	@cd crates/rx && rt try --cases $(DEMO) --data hello=$(FIRST)/record \
		--data installer=$(CURDIR)/examples/installer-prompts/record

# rt builds only what it has proved, and runs it once on the first example.
rx:
	cd crates/rx && rt run -- --replay $(FIRST)/record $(FIRST)/script.exp
	cd crates/rx_explain && rt run -- --brief --replay $(FIRST)/record $(FIRST)/script.exp
	mkdir -p out && cp crates/rx/out/rx out/rx && cp crates/rx_explain/out/rx_explain out/rx-explain

# It proves nothing, so that it can be run as another user than the one that ran make rx.
install: built install-documents
	install -D -m 755 out/rx $(DESTDIR)$(PREFIX)/bin/rx
	install -D -m 755 out/rx-explain $(DESTDIR)$(PREFIX)/bin/rx-explain
	install -D -m 755 tools/rx-cut-record $(DESTDIR)$(PREFIX)/bin/rx-cut-record
	install -d $(SHARE)/man/man1
	for page in rx.1 rx-explain.1; do \
		sed 's|/usr/local|$(PREFIX)|g' $$page >$(SHARE)/man/man1/$$page && \
		chmod 644 $(SHARE)/man/man1/$$page || exit 1; \
	done

built:
	@test -x out/rx -a -x out/rx-explain || { echo "there is no out/rx or no out/rx-explain yet: make rx" >&2; exit 1; }

install-documents:
	install -D -m 644 -t $(DOCUMENTS) README.md CHANGELOG.md
	install -D -m 644 -t $(DOCUMENTS)/docs docs/*.md
	for it in $(LINKED) $(wildcard crates/*); do \
		test ! -f $$it/README.md || install -D -m 644 -t $(DOCUMENTS)/$$it $$it/README.md || exit 1; \
	done
	cd examples && find . -type f -exec install -D -m 644 {} $(DOCUMENTS)/examples/{} \;

uninstall:
	rm -f $(DESTDIR)$(PREFIX)/bin/rx $(DESTDIR)$(PREFIX)/bin/rx-explain
	rm -f $(DESTDIR)$(PREFIX)/bin/rx-cut-record
	rm -f $(SHARE)/man/man1/rx.1 $(SHARE)/man/man1/rx-explain.1
	rm -rf $(DOCUMENTS)

deb:
	tools/deb

# rt reckons with up to three times the memory that a proof takes, and so would leave processors idle: as many
# proofs run at once as there are processors, where each has 5 GB.
JOBS ?= $(shell awk -v of=$$(nproc) '/^MemTotal/ { n = int($$2 / 5000000) } END { print n < 1 ? 1 : n < of ? n : of }' /proc/meminfo)
test:
	RT_JOBS=$(JOBS) rt ci

house:
	tools/house
	tools/links
	tools/commands

# The program is not built here, so that another one can be tried, as an installed one.
stories: built
	tools/stories
	tools/as-rx

guide:
	tools/guide --program $(RX)

rows:
	tools/rows

rows-now:
	tools/rows-now $(FAMILIES)

tests-now:
	tools/tests-now $(CRATES)

edits:
	tools/edits $(SINCE)

live: rx
	live/live --record
	live/cuts

# The program runs no row here: rt builds only what it has proved.
compare: rx
	cd crates/rowtests && rt run -- --scripts /dev/null
	compare/compare --scripts $(SCRIPTS) --seed $(SEED) --also expr,if,while,for,switch,array
	compare/edges
	compare/dialogues --random $(DIALOGUES) --seed $(SEED)

bench: rx
	bench/keep

soak: rx
	bench/soak
	bench/soak --patterns 50
	bench/soak --ids 64

clean:
	rm -rf out crates/*/out
