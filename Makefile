# Installs the proved program with its manual pages, documents, tools and examples.
#
#   make install [PREFIX=/usr/local] [DESTDIR=]     installs; builds and proves the program first where that is needed
#   make uninstall [PREFIX=/usr/local] [DESTDIR=]   takes the same files away
#   make package                                    makes a Debian package in build/, and prints its checksum
PREFIX ?= /usr/local
DESTDIR ?=
PROGRAM ?= .build/topo

bin = $(PREFIX)/bin
lib = $(PREFIX)/lib/topo
man = $(PREFIX)/share/man/man1
doc = $(PREFIX)/share/doc/topo
units = $(PREFIX)/lib/systemd/system
tools = from-ogr to-gis draw answers report changes lapsed marks fixes night tiles towns serve postgis
systemd = topo-serve@.service topo-serve@.socket topo-night@.service topo-night@.timer
qgis = $(PREFIX)/share/qgis/python/plugins/topo_errors
commands = $(addprefix topo-,$(tools))
folders = $(bin) $(lib)/lib/serve $(lib)/lib/postgis $(qgis) $(units) $(man) $(doc)/docs/rules $(doc)/docs/figures $(doc)/examples $(doc)/tools

.PHONY: install uninstall package program

# The launcher proves and builds the program, and keeps it as .build/topo.
program:
	@test "$(PROGRAM)" != .build/topo || ./topo --prove

# What is installed has the modes that are named here, whatever the umask is.
install: program
	umask 022 && for folder in $(folders); do install -d "$(DESTDIR)$$folder" || exit; done
	install -m 755 "$(PROGRAM)" "$(DESTDIR)$(lib)/topo"
	sed -e 's|@DOCDIR@|$(doc)|' packaging/launcher >"$(DESTDIR)$(bin)/topo"
	chmod 755 "$(DESTDIR)$(bin)/topo"
	install -m 644 packaging/version "$(DESTDIR)$(lib)/version"
	install -m 755 $(addprefix tools/,$(tools)) "$(DESTDIR)$(lib)"
	install -m 644 tools/lib/*.py tools/lib/*.html tools/lib/launch.sh "$(DESTDIR)$(lib)/lib"
	install -m 644 tools/lib/serve/*.py "$(DESTDIR)$(lib)/lib/serve"
	install -m 644 tools/lib/postgis/*.py tools/lib/postgis/*.sql "$(DESTDIR)$(lib)/lib/postgis"
	install -m 644 tools/qgis/topo_errors/*.py tools/qgis/topo_errors/metadata.txt "$(DESTDIR)$(qgis)"
	for tool in $(tools); do ln -sf "../lib/topo/$$tool" "$(DESTDIR)$(bin)/topo-$$tool" || exit; done
	for unit in $(systemd); do \
	    sed -e 's|@DOCDIR@|$(doc)|' -e 's|@BINDIR@|$(bin)|' "packaging/$$unit" >"$(DESTDIR)$(units)/$$unit" && \
	    chmod 644 "$(DESTDIR)$(units)/$$unit" || exit 1; done
	sed -e 's|@DOCDIR@|$(doc)|' -e 's|@LIBDIR@|$(lib)|' packaging/topo.1 >"$(DESTDIR)$(man)/topo.1"
	packaging/tool_pages "$(doc)" "$(DESTDIR)$(man)" $(tools)
	chmod 644 "$(DESTDIR)$(man)/topo.1" $(addprefix "$(DESTDIR)$(man)"/,$(addsuffix .1,$(commands)))
	install -m 644 README.md GLOSSARY.md CHANGES.md "$(DESTDIR)$(doc)"
	install -m 644 docs/*.md "$(DESTDIR)$(doc)/docs"
	install -m 644 docs/rules/*.md docs/rules/*.svg "$(DESTDIR)$(doc)/docs/rules"
	install -m 644 docs/figures/*.svg docs/figures/*.png "$(DESTDIR)$(doc)/docs/figures"
	install -m 644 tools/README.md "$(DESTDIR)$(doc)/tools"
	install -m 644 examples/*.topo examples/*.project examples/Snakefile "$(DESTDIR)$(doc)/examples"
	install -m 755 examples/make_parcels examples/make_town examples/talk examples/desk "$(DESTDIR)$(doc)/examples"

uninstall:
	rm -f "$(DESTDIR)$(bin)/topo" $(addprefix "$(DESTDIR)$(bin)"/,$(commands)) "$(DESTDIR)$(man)/topo.1"
	rm -f $(addprefix "$(DESTDIR)$(man)"/,$(addsuffix .1,$(commands)))
	rm -f $(addprefix "$(DESTDIR)$(units)"/,$(systemd))
	rm -rf "$(DESTDIR)$(lib)" "$(DESTDIR)$(doc)" "$(DESTDIR)$(qgis)"

package: program
	tools/package "$(PROGRAM)" build
	@cd build && sha256sum topo_*.deb
