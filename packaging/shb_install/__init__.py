"""Puts the commands, manual pages and completions where users have them, and makes the package."""
