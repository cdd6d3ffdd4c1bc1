"""Tests of the package `repository` of the tools."""
