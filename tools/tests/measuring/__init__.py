"""Tests of the package `measuring` of the tools."""
