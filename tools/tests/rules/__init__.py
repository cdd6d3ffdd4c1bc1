"""Tests of the package `rules` of the tools."""
