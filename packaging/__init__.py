"""What builds Debian's packages."""
