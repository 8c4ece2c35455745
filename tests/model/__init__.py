"""Independent models: what the programs of cases have to answer."""
