"""Tests of the package `page` of the tools."""
