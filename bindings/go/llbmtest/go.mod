module llbm.example/llbm/bindings/go/llbmtest

go 1.21

// BuildKit's client is that of the frontend under test: `go mod tidy` adds what it asks for of other modules.
require (
	github.com/moby/buildkit v0.13.2
	llbm.example/llbm/bindings/go v1.0.0
)

replace llbm.example/llbm/bindings/go => ../
