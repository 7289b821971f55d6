"""The modules of ./glintstool, the command for a class."""
