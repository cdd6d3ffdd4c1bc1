"""Tests of the package `sessions` of the tools."""
