"""Tests of the package `images` of the tools."""
