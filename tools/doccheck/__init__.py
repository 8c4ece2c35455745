"""The checks of tools.documents, a module for each."""
