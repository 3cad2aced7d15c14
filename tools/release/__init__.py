"""Makes what is installed: man pages, completions, and the packages."""
