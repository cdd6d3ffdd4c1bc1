"""Tests of the package `trees` of the tools."""
