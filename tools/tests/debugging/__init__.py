"""Tests of the package `debugging` of the tools."""
