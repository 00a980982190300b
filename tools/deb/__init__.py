"""The parts of tools/package: manual pages, the copyright file, and the pages as they are installed."""
