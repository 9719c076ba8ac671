# Installs and packs what dist/ holds: nothing is proved or built here. The gate is checks/run.
PREFIX ?= /usr/local
LIBDIR ?= $(PREFIX)/lib
PYTHONDIR ?= $(PREFIX)/lib/pevudlo/python
DESTDIR ?=
OUT ?= out

.PHONY: help install uninstall wheel deb parts check

help:
	@echo "make install [PREFIX=$(PREFIX)] [DESTDIR=], make uninstall (the same words), make wheel, make deb, make parts (into $(OUT)/), make check"

install:
	PREFIX="$(PREFIX)" LIBDIR="$(LIBDIR)" PYTHONDIR="$(PYTHONDIR)" DESTDIR="$(DESTDIR)" packaging/install

uninstall:
	PREFIX="$(PREFIX)" LIBDIR="$(LIBDIR)" PYTHONDIR="$(PYTHONDIR)" DESTDIR="$(DESTDIR)" packaging/uninstall

wheel:
	packaging/wheel "$(OUT)"

deb:
	packaging/deb "$(OUT)"

parts:
	mkdir -p "$(OUT)"
	packaging/sbom -o "$(OUT)/parts.cdx.json"

check:
	packaging/check
