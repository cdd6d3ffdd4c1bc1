"""Tests of the package `daemon` of the tools."""
