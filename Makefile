# The few commands that a reader of this repository needs. `make help` lists them.
.PHONY: help build run test check c python fuzz install uninstall dist clean fmt bench definitions promises
.DELETE_ON_ERROR:

# Where `make install` puts its files, below DESTDIR where that is given.
PREFIX ?= /usr/local
to = $(DESTDIR)$(PREFIX)

VERSION := $(shell cat VERSION)
shared = librdlpp_c.so
# The name by which a program that is linked with the shared library asks for it.
soname = $(shared).$(basename $(VERSION))

# The folders of a crate and of all below it: crates.txt has the lowest first, so one walk from its end meets each.
folders = $(shell tac crates.txt | awk -F '[ :]+' -v crate=$(1) \
	'BEGIN { is[crate] } $$1 in is { for (i = 2; i <= NF; i++) is[$$i]; print "crates/" $$1 }')
# The files that what is built of a crate comes from.
sources = crates.txt $(shell find $(wildcard $(foreach folder,$(call folders,$(1)),$(addprefix $(folder)/,src specs proofs))) -type f)

help: ## list these commands
	@grep -E '^[a-z]+:.*##' $(MAKEFILE_LIST) | sed -E 's/^([a-z]+):.*## /  make \1\t/'

build: out/rdlpp ## prove and build the program, which becomes out/rdlpp

out/rdlpp: $(call sources,rdlpp_cli)
	@checks/build

run: ## show the worked examples with their output, in two minutes: by out/rdlpp, or by a program without a proof where that isn't built
	@if $(MAKE) --silent --question out/rdlpp; then examples/show; else examples/show --unproved; fi

# The gate takes no links, of which the library for C has two; `checks/from_gate` makes them anew. `make test anew=--anew` takes
# nothing that earlier gates kept on this machine.
test: ## the gate (every proof, the must-fail edits, the stored runs), and then the checks over what it built
	@rm -f out/$(shared) out/$(shared).*
	@checks/gate $(anew)
	@checks/all

# The library for C, where the tools for it are there: without them the checks over it are skipped.
library := $(if $(shell checks/c/missing_tools),,out/librdlpp_c.a)

check: out/rdlpp $(library) ## run the built program over files, streams, examples, refused command lines and refused memory
	@checks/all

c: out/librdlpp_c.a ## prove and build the library for C, which becomes out/librdlpp_c.a and out/librdlpp_c.so

out/librdlpp_c.a: $(call sources,rdlpp_c) checks/c/library VERSION
	@checks/c/library

python: out/rdlpp out/librdlpp_c.a ## build the program, the library for C and the wheel of the Python package, which goes to out/
	@python3 python/wheel_backend.py out

fuzz: out/rdlpp ## run the program over random sources: SEED=1 CASES=2000, or other numbers
	@checks/random $(or $(SEED),1) $(or $(CASES),2000)

install: out/rdlpp out/librdlpp_c.a ## put program, manual page, headers, libraries for C and rdlpp.pc below PREFIX (/usr/local); builds only what is older than a source
	install -D -m 755 out/rdlpp '$(to)/bin/rdlpp'
	install -D -m 644 docs/rdlpp.1 '$(to)/share/man/man1/rdlpp.1'
	install -D -m 644 include/rdlpp.h '$(to)/include/rdlpp.h'
	install -D -m 644 include/rdlpp.hpp '$(to)/include/rdlpp.hpp'
	install -D -m 644 out/librdlpp_c.a '$(to)/lib/librdlpp_c.a'
	install -D -m 755 out/$(shared).$(VERSION) '$(to)/lib/$(shared).$(VERSION)'
	ln -sf $(shared).$(VERSION) '$(to)/lib/$(soname)'
	ln -sf $(shared).$(VERSION) '$(to)/lib/$(shared)'
	@mkdir -p '$(to)/lib/pkgconfig'
	sed 's|@PREFIX@|$(PREFIX)|; s|@VERSION@|$(VERSION)|' include/rdlpp.pc.in > '$(to)/lib/pkgconfig/rdlpp.pc'

uninstall: ## take away what `make install` put below PREFIX
	cd '$(to)' && rm -f bin/rdlpp share/man/man1/rdlpp.1 include/rdlpp.h include/rdlpp.hpp lib/librdlpp_c.a \
		lib/$(shared).$(VERSION) lib/$(soname) lib/$(shared) lib/pkgconfig/rdlpp.pc

dist: out/rdlpp out/librdlpp_c.a ## make packages in out/: in a git checkout the committed sources, the wheel, and where there is dpkg-deb a Debian package
	@packaging/source
	@python3 python/wheel_backend.py out
	@packaging/debian

clean: ## remove all that was built, and what proofs were kept, so that the next build proves all anew
	rm -rf out crates/*/out

fmt: ## lay out every file
	@for crate in crates/*/; do (cd $$crate && rt fmt); done

bench: out/rdlpp out/librdlpp_c.a ## build the programs, compare speed and memory with cat and five other tools, and calls from Python with the program
	@bench/compare out/rdlpp
	@bench/python out/rdlpp

definitions: ## write the list of all definitions to out/definitions.md
	@docs/list_definitions

promises: ## write the contract of every public function, clause by clause, to out/promises.md
	@docs/list_promises
