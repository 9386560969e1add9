"""A second checker of journals, written from docs/formats.md and docs/definitions.md alone."""
