"""Tests of the package `fuzzing` of the tools."""
