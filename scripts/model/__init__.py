"""A plain model of document 01 for the files that scripts/generate.py writes. It shares no code with the crates, so that what they print is
compared with what another implementation says."""
