"""A model of the treasury, written from docs/RULES.md and docs/FORMATS.md alone. README.md says how it is used."""
