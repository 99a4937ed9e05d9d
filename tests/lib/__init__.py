"""What several tests need. A script has `tests` on its path, which is where this package is."""
