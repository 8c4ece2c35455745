"""The program beside other projects' clients and servers."""
