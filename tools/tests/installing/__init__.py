"""Tests of the package `installing` of the tools."""
