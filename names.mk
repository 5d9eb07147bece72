# names.mk: names that a user gives are data, whatever they hold. make does not expand them, and no recipe has them in its text: the
# shell finds them in its environment. (Blanks in front of a name are make's own: ./ goes before them.)

PREFIX ?= /usr/local
override FILE := $(value FILE)
override DESTDIR := $(value DESTDIR)
override PREFIX := $(value PREFIX)
override LIBDIR := $(value LIBDIR)
export FILE DESTDIR PREFIX LIBDIR
