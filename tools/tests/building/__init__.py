"""Tests of the package `building` of the tools."""
