# make test           two minutes of four cores, without the toolchain: examples, rows of commands with their replies, launcher, companion, pictures
# make                proves the crates and builds the program and the library for C of them, with the toolchain: what changed, and what
#                     stands on it
# make install        puts the program in its places below PREFIX, with its launcher, pages, completions, companion and library for C:
#                     what `make` built here, else those in dist/. It may be moved. DESTDIR is put before PREFIX while files are copied
# make uninstall      takes them away again
# make package        out/bench-VERSION-x86_64-linux.tar.gz, which runs where it is unpacked
# make static         out/bench-x86_64-linux-static, of what `make` built, for systems without glibc 2.34; needs gcc and its libc.a
# make pictures       draws the pictures of the docs from scripts in examples/ and the table of docs/SPEED.md; needs Node
# make page           dist/bench.html, the bench in one page, with dist/bench.wasm and dist/bench.mjs; proves bench_c
# make machines       out/machines/, the program and the library for other machines: x86-64 with AVX2, and aarch64; minutes of one core for each of four files
# make words          writes the words of docs/LANGUAGE.md into help, manual page and syntax files
# make dist           writes dist/ anew, from what `make`, `make page` and `make machines` made
# make check          the gate: every proof from scratch, dist/, and `make test`
PREFIX = /usr/local
DESTDIR =
to = $(DESTDIR)$(PREFIX)
machine = $(eval machine := $(shell uname -m))$(machine)
program = $(firstword $(wildcard crates/bench_main/out/bench_main dist/bench-$(machine)-linux))
package = bench-$(shell sed -n '/^## /{s/## \([0-9.]*\).*/\1/p;q;}' CHANGELOG.md)-$(machine)-linux
library = $(firstword $(wildcard $(if $(filter aarch64,$(machine)),dist/libbench-aarch64.so.1,out/library/libbench.so.1 dist/libbench.so.1)))
# (what is faster on processors with AVX2, where what is installed is that of dist/)
v3 = glibc-hwcaps/x86-64-v3/libbench.so.1
crates := $(shell sed -n 's/^\([a-z_]*\):.*/\1/p; s/^\([a-z_]*\) staticlib:.*/\1/p' crates.txt)
uses = $(filter $(crates),$(shell sed -n 's/^$1://p; s/^$1 staticlib://p' crates.txt))
# (asked once, and only where something is built)
kit = $(eval kit := $(shell rt version))$(kit)
export BENCH_BEGAN = $(eval BENCH_BEGAN := $(shell date +%s))$(BENCH_BEGAN)

# As many crates at a time as there are cores, and memory: 4 GB for each. -j says otherwise.
MAKEFLAGS += -j$(shell awk -v cores="$$(nproc)" '/^MemAvailable:/ { n = int($$2 / 4000000) } END { print n < 1 ? 1 : n < cores ? n : cores }' /proc/meminfo)

# (first what takes longest, with the crates below it)
all: prove-script_lang prove-fancy_index prove-bench_main $(if $(filter bench_c,$(crates)),library)
	@echo "bench: the program is what these sources give"

library: prove-bench_c
	@exec python3 tools/make/library.py

define rule
prove-$1: $(addprefix prove-,$(call uses,$1))
	@exec python3 tools/make/prove.py $1 "$$(kit)"
endef
$(foreach crate,$(crates),$(eval $(call rule,$(crate))))

# What goes where below PREFIX, as FILE:PLACE.
runs = bench:bin/bench companion/bench-tool:bin/bench-tool $(program):libexec/bench/bench_main \
	$(if $(filter dist/bench-x86_64-linux,$(program)),$(foreach file,$(wildcard dist/bench-x86_64-v3-linux),$(file):libexec/bench/$(notdir $(file))))
below = $(foreach file,$(shell find $1 -name __pycache__ -prune -o -type f -print),$(file):$2$(file:$1%=%))
reads = man/bench.1:share/man/man1/bench.1 man/bench-tool.1:share/man/man1/bench-tool.1 \
	$(foreach tool,bench bench-tool,completions/$(tool).bash:share/bash-completion/completions/$(tool) completions/_$(tool):share/zsh/site-functions/_$(tool)) \
	$(call below,editors/vim,share/vim/vimfiles) $(call below,editors,share/bench/editors) $(call below,examples,share/doc/bench/examples) \
	$(call below,companion/bench_tool,lib/bench-tool/bench_tool) docs/LANGUAGE.md:lib/bench-tool/LANGUAGE.md \
	$(foreach file,$(wildcard dist/bench.html),$(file):lib/bench-tool/bench.html) \
	$(foreach file,$(wildcard README.md CHANGELOG.md LICENSE* docs/*.md docs/pictures/*),$(file):share/doc/bench/$(file)) \
	$(if $(library),$(library):lib/libbench.so.1 library/bench.h:include/bench.h library/bench.pc:lib/pkgconfig/bench.pc \
		library/bench_test.hpp:include/bench_test.hpp library/bench-config.cmake:lib/cmake/bench/bench-config.cmake) \
	$(foreach file,$(wildcard $(library:.so.1=.a)),$(file):lib/libbench.a) \
	$(if $(filter dist/libbench.so.1,$(library)),$(foreach file,$(wildcard dist/$(v3)),$(file):lib/$(v3)))

install:
	@[ -n "$(program)" ] || { echo "bench: no program: \`make\` builds it" >&2; exit 3; }
	@for pair in 755 $(runs) 644 $(reads); do \
	    case $$pair in *:*) install -D -m $$mode "$${pair%%:*}" "$(to)/$${pair#*:}" || exit 1 ;; *) mode=$$pair ;; esac; \
	done
	@[ -z "$(library)" ] || ln -sf libbench.so.1 "$(to)/lib/libbench.so"
	@echo "bench: installed below $(to)"

uninstall:
	@[ -n "$(program)" ] || { echo "bench: no program: \`make\` builds it" >&2; exit 3; }
	@for pair in $(runs) $(reads); do rm -f "$(to)/$${pair#*:}"; done
	@rm -rf "$(to)/lib/libbench.so" "$(to)/libexec/bench" "$(to)/lib/bench-tool" "$(to)/share/bench" "$(to)/share/doc/bench"
	@rmdir "$(to)/lib/$(dir $(v3))" "$(to)/lib/glibc-hwcaps" 2>/dev/null || true

package:
	@rm -rf out/package && $(MAKE) -s install DESTDIR=out/package/ PREFIX=$(package) >/dev/null
	@tar -C out/package -czf out/$(package).tar.gz $(package) && rm -rf out/package && echo "bench: out/$(package).tar.gz"

static:
	@[ -f crates/bench_main/out/bench_main.o ] || { echo "bench: this links what \`make\` built" >&2; exit 3; }
	@kit=$$(dirname "$$(readlink -f "$$(command -v rt)")")/../c && mkdir -p out && \
	gcc -static -s -o out/bench-x86_64-linux-static crates/bench_main/out/bench_main.o "$$kit/libos_c.a" "$$kit/liblibc_c.a"

pictures:
	@for drawn in mirrored:4 views:5 broadcast:4 reshape:5 overlap:3; do \
	    companion/bench-tool draw examples/$${drawn%:*}.bench --line $${drawn#*:} --svg -o $(or $(FOLDER),docs/pictures)/$${drawn%:*}.svg || exit 1; \
	done
	@tools/make/speed.py $(or $(FOLDER),docs/pictures)

page: $(if $(filter bench_c,$(crates)),prove-bench_c)
	@page/build.py

machines: machines-bench_main machines-bench_c

machines-%: prove-%
	@exec tools/make/machines.py $*

words:
	@tools/make/words.py

dist:
	@tools/make/dist.py

test:
	@tools/test.py

check:
	@tools/test.py --gate

.PHONY: all library install uninstall package static pictures page machines words dist test check $(addprefix prove-,$(crates))
