"""The version of this module, and of the library that it is made for: that of the file VERSION at the top of the sources."""
VERSION = 10
