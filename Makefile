# make demo    the main job: a frame cut, and the night with two two-o'clocks; make demo NIGHT="files=30 share0=2" changes it, and
#              NIGHT="lose=50" shows it with each 50th packet lost on the way
# make test    the gate: proofs, must-fail edits, programs, the second program's tests, and a fresh set of cases compared with it
#              make test SEED=17 COUNT=5000 repeats a set, or makes a larger one
# make wrong   tries every edit of must-fail/ and wrong/ by the incremental check; no verdict. make wrong CRATE=sender tries one crate's
# make bench   instructions per call against plain C
# make install PREFIX=/usr/local    header, archive and pkg-config file for a host in C (DESTDIR goes before it, as usual)
# make cases   writes the stored cases of the answering programs anew (after a call was added to both programs)
SEED =
COUNT = 3000
PREFIX = /usr/local
DESTDIR =
NIGHT =
CRATE =

.PHONY: test wrong demo bench install cases

test:
	@sh scripts/test.sh "$(COUNT)" "$(SEED)"

wrong:
	@sh scripts/wrong.sh $(CRATE)

demo:
	@sh scripts/demo.sh $(NIGHT)

bench:
	@sh bench/count.sh

install:
	@sh scripts/install.sh "$(PREFIX)" "$(DESTDIR)"

cases:
	@sh scripts/cases.sh
