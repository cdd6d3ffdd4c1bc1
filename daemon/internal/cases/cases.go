// Package cases says how many random cases a test tries.
package cases

import "testing"

// Of returns how many of so many cases are tried: all, or a quarter of them where the tests are short.
func Of(all int) int {
	if testing.Short() {
		return all / 4
	}
	return all
}
