"""parv-map: draws which slices of a set are where."""
