"""Tests of the package `llb` of the tools."""
