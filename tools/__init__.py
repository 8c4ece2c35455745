"""Scripts that hold the documents against the sources, and write parts of them."""
