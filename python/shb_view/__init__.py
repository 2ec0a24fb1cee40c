"""Races of a report explained, as text and as a page (`python/shb-view`). It is outside the proved claims: it
shows what a report says, and `shb check` judges a report."""
