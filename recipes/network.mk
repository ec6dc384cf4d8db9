# make -f recipes/network.mk -k -j 4: NAME.cert of each NAME.base, NAME.rover, NAME.nav in this folder, by `one`.
# A certificate appears under its name only whole (by mv), so neither kill -9 nor a full disk leaves half of one that make
# takes for done. Status 1 is a decline, which is an answer. make reads names as its own language, so it takes plain ones:
# letters, digits and any of . _ + @ , - but no dash first. Others are left out; the target `odd` counts them and fails.
one := $(dir $(lastword $(MAKEFILE_LIST)))one
plain := [A-Za-z0-9._+@,][-A-Za-z0-9._+@,]*[.]base
names := $(shell printf '%s\n' *.base | LC_ALL=C grep -ax '$(plain)')
.PHONY: all odd
all: $(names:.base=.cert) odd
%.cert: %.base %.rover %.nav
	@'$(one)' '$*'
odd:
	@n=0; for f in *.base; do LC_ALL=C; case $$f in -* | *[!A-Za-z0-9._+@,-]*) [ ! -f "./$$f" ] || n=$$((n + 1));; esac; done; \
	[ $$n = 0 ] || { echo "network.mk: $$n names that make can't take are left out; xargs takes them" >&2; exit 1; }
