"""Tests of the package `running` of the tools."""
