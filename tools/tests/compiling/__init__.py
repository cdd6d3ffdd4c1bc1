"""Tests of the package `compiling` of the tools."""
