// Package archvariant stands in for the package that Debian lacks, so that buildkitd compiles.
package archvariant

func AMD64Variant() string { return "v1" }
