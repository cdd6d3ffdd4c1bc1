"""Tests of the package `definitions` of the tools."""
