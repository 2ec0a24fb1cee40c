"""Analyses a folder of traces on one machine or a cluster, and joins what was found."""
